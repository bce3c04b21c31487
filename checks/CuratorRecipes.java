import java.util.concurrent.Callable;
import java.util.concurrent.TimeUnit;
import java.util.concurrent.atomic.AtomicInteger;
import org.apache.curator.framework.CuratorFramework;
import org.apache.curator.framework.CuratorFrameworkFactory;
import org.apache.curator.framework.recipes.atomic.DistributedAtomicLong;
import org.apache.curator.framework.recipes.barriers.DistributedDoubleBarrier;
import org.apache.curator.framework.recipes.cache.NodeCache;
import org.apache.curator.framework.recipes.cache.PathChildrenCache;
import org.apache.curator.framework.recipes.cache.TreeCache;
import org.apache.curator.framework.recipes.leader.LeaderLatch;
import org.apache.curator.framework.recipes.locks.InterProcessMutex;
import org.apache.curator.framework.recipes.locks.InterProcessSemaphoreV2;
import org.apache.curator.framework.recipes.queue.SimpleDistributedQueue;
import org.apache.curator.retry.RetryNTimes;
import org.apache.zookeeper.CreateMode;
import org.apache.zookeeper.KeeperException;

/**
 * Recipes of Curator by two clients.
 *
 * <p>Arguments: `containers`, or `plain` for parents that are no container nodes; the servers of each client.
 */
final class CuratorRecipes {
    private static final long PATIENCE_MS = 20_000;

    private static boolean containers;

    private static CuratorFramework one;

    private static CuratorFramework two;

    private interface Act {
        void run() throws Exception;
    }

    private static CuratorFramework client(String hosts) throws Exception {
        CuratorFrameworkFactory.Builder builder = CuratorFrameworkFactory.builder().connectString(hosts)
            .sessionTimeoutMs(10_000).connectionTimeoutMs(10_000).retryPolicy(new RetryNTimes(20, 200));
        CuratorFramework it = (containers ? builder : builder.dontUseContainerParents()).build();
        it.start();
        expect(it.blockUntilConnected(30, TimeUnit.SECONDS), "a connection");
        return it;
    }

    private static void expect(boolean holds, String what) {
        if (!holds) {
            throw new IllegalStateException(what);
        }
    }

    private static void until(Callable<Boolean> condition, String what) throws Exception {
        long end = System.currentTimeMillis() + PATIENCE_MS;
        while (!condition.call()) {
            expect(System.currentTimeMillis() < end, "not in time: " + what);
            Thread.sleep(20);
        }
    }

    /** Six threads of both clients take a lock ten times each; never two at once. */
    private static void mutex() throws Exception {
        AtomicInteger inside = new AtomicInteger();
        AtomicInteger most = new AtomicInteger();
        AtomicInteger turns = new AtomicInteger();
        Thread[] threads = new Thread[6];
        for (int place = 0; place < threads.length; place++) {
            InterProcessMutex lock = new InterProcessMutex(place % 2 == 0 ? one : two, "/lock");
            threads[place] = new Thread(() -> {
                try {
                    for (int turn = 0; turn < 10; turn++) {
                        lock.acquire();
                        most.accumulateAndGet(inside.incrementAndGet(), Math::max);
                        Thread.sleep(2);
                        inside.decrementAndGet();
                        turns.incrementAndGet();
                        lock.release();
                    }
                } catch (Exception error) {
                    System.out.println("mutex: " + error);
                }
            });
            threads[place].start();
        }
        for (Thread it : threads) {
            it.join();
        }
        expect(turns.get() == 60 && most.get() == 1, turns + " turns, " + most + " at once");
    }

    private static void leaderLatch() throws Exception {
        LeaderLatch first = new LeaderLatch(one, "/leader", "first");
        LeaderLatch second = new LeaderLatch(two, "/leader", "second");
        first.start();
        until(first::hasLeadership, "the first leads");
        second.start();
        until(() -> second.getParticipants().size() == 2, "two participants");
        expect(!second.hasLeadership(), "two lead");
        first.close();
        until(second::hasLeadership, "the second leads");
        second.close();
    }

    private static void atomicLong() throws Exception {
        DistributedAtomicLong first = new DistributedAtomicLong(one, "/long", new RetryNTimes(50, 10));
        DistributedAtomicLong second = new DistributedAtomicLong(two, "/long", new RetryNTimes(50, 10));
        for (int turn = 0; turn < 20; turn++) {
            expect(first.increment().succeeded() && second.increment().succeeded(), "an increment");
        }
        one.sync().forPath("/");
        expect(first.get().postValue() == 40, "the sum is " + first.get().postValue());
    }

    private static boolean isTwo(byte[] data) {
        return new String(data).equals("2");
    }

    private static void caches() throws Exception {
        one.create().forPath("/cached");
        two.sync().forPath("/");
        PathChildrenCache children = new PathChildrenCache(two, "/cached", true);
        NodeCache node = new NodeCache(two, "/cached/x");
        TreeCache tree = new TreeCache(two, "/cached");
        children.start();
        node.start();
        tree.start();
        one.create().forPath("/cached/x", "1".getBytes());
        one.setData().forPath("/cached/x", "2".getBytes());
        until(() -> children.getCurrentData().size() == 1 && isTwo(children.getCurrentData().get(0).getData()), "PathChildrenCache");
        until(() -> node.getCurrentData() != null && isTwo(node.getCurrentData().getData()), "NodeCache");
        until(() -> tree.getCurrentData("/cached/x") != null && isTwo(tree.getCurrentData("/cached/x").getData()), "TreeCache");
        children.close();
        node.close();
        tree.close();
    }

    private static void transaction() throws Exception {
        int results = one.transaction().forOperations(
            one.transactionOp().create().forPath("/multi", "a".getBytes()),
            one.transactionOp().setData().forPath("/multi", "b".getBytes()),
            one.transactionOp().check().withVersion(1).forPath("/multi")).size();
        expect(results == 3 && new String(one.getData().forPath("/multi")).equals("b"), results + " results");
        try {
            one.transaction().forOperations(
                one.transactionOp().delete().forPath("/multi"), one.transactionOp().create().forPath("/none/x"));
            throw new IllegalStateException("half a transaction");
        } catch (KeeperException.NoNodeException expected) {
            expect(one.checkExists().forPath("/multi") != null, "the delete took place");
        }
    }

    private static void semaphore() throws Exception {
        InterProcessSemaphoreV2 first = new InterProcessSemaphoreV2(one, "/semaphore", 2);
        InterProcessSemaphoreV2 second = new InterProcessSemaphoreV2(two, "/semaphore", 2);
        var lease = first.acquire(5, TimeUnit.SECONDS);
        expect(lease != null && second.acquire(5, TimeUnit.SECONDS) != null, "two leases");
        expect(first.acquire(300, TimeUnit.MILLISECONDS) == null, "a third lease");
        first.returnLease(lease);
        expect(second.acquire(5, TimeUnit.SECONDS) != null, "a lease that was returned");
    }

    private static void doubleBarrier() throws Exception {
        DistributedDoubleBarrier first = new DistributedDoubleBarrier(one, "/barrier", 2);
        DistributedDoubleBarrier second = new DistributedDoubleBarrier(two, "/barrier", 2);
        Thread other = new Thread(() -> {
            try {
                second.enter();
                second.leave();
            } catch (Exception error) {
                System.out.println("double barrier: " + error);
            }
        });
        other.start();
        expect(first.enter(10, TimeUnit.SECONDS) && first.leave(10, TimeUnit.SECONDS), "both enter, both leave");
        other.join();
    }

    private static void queue() throws Exception {
        SimpleDistributedQueue in = new SimpleDistributedQueue(one, "/queue");
        SimpleDistributedQueue out = new SimpleDistributedQueue(two, "/queue");
        for (int item = 0; item < 10; item++) {
            in.offer(Integer.toString(item).getBytes());
        }
        two.sync().forPath("/");
        for (int item = 0; item < 10; item++) {
            expect(new String(out.take()).equals(Integer.toString(item)), "the order");
        }
    }

    private static void nodes() throws Exception {
        String path = one.create().creatingParentsIfNeeded().withProtection().withMode(CreateMode.EPHEMERAL_SEQUENTIAL).forPath("/p/q/n-");
        expect(path.matches("/p/q/_c_[0-9a-f-]{36}-n-\\d{10}"), path);
        one.create().creatingParentsIfNeeded().forPath("/d/e/f");
        one.delete().guaranteed().deletingChildrenIfNeeded().forPath("/d");
        expect(one.checkExists().forPath("/d") == null, "it was deleted");
        expect(one.getACL().forPath("/multi").size() == 1, "one ACL");
    }

    public static void main(String[] args) throws Exception {
        containers = args[0].equals("containers");
        one = client(args[1]);
        two = client(args[2]);
        String[] names = {"mutex", "leader latch", "atomic long", "caches", "transaction", "semaphore", "double barrier", "queue", "nodes"};
        Act[] acts = {CuratorRecipes::mutex, CuratorRecipes::leaderLatch, CuratorRecipes::atomicLong, CuratorRecipes::caches,
            CuratorRecipes::transaction, CuratorRecipes::semaphore, CuratorRecipes::doubleBarrier, CuratorRecipes::queue, CuratorRecipes::nodes};
        int failed = 0;
        for (int place = 0; place < acts.length; place++) {
            try {
                acts[place].run();
            } catch (Throwable error) {
                failed++;
                System.out.println("FAILED " + names[place] + ": " + error);
            }
        }
        System.out.println((acts.length - failed) + " recipes, " + failed + " failed");
        System.exit(failed == 0 ? 0 : 1);
    }
}
