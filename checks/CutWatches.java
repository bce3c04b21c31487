import java.io.IOException;
import java.io.InputStream;
import java.io.OutputStream;
import java.net.InetAddress;
import java.net.ServerSocket;
import java.net.Socket;
import java.util.ArrayList;
import java.util.List;
import java.util.Map;
import java.util.Random;
import java.util.concurrent.ConcurrentHashMap;
import java.util.concurrent.CountDownLatch;
import java.util.concurrent.TimeUnit;
import java.util.concurrent.atomic.AtomicInteger;
import org.apache.zookeeper.CreateMode;
import org.apache.zookeeper.WatchedEvent;
import org.apache.zookeeper.Watcher;
import org.apache.zookeeper.ZooDefs;
import org.apache.zookeeper.ZooKeeper;

/**
 * A Java client whose connection is cut again and again while another client changes the nodes that it watches. Each change must
 * reach it as one event, and no event without a change.
 *
 * <p>Arguments: the number of cuts, and the ports of the servers on 127.0.0.1.
 */
final class CutWatches {
    private static final int NODES = 40;

    private static final long PATIENCE_MS = 60_000;

    private static final Map<String, AtomicInteger> SEEN = new ConcurrentHashMap<>();

    /** Passes bytes between a client and a server, until it is cut. */
    static final class Proxy {
        private final ServerSocket listener = new ServerSocket(0, 50, InetAddress.getLoopbackAddress());

        private final int server;

        private final List<Socket> open = new ArrayList<>();

        Proxy(int server) throws IOException {
            this.server = server;
            daemon(this::accept);
        }

        int port() {
            return listener.getLocalPort();
        }

        synchronized void cut() {
            for (Socket it : open) {
                try {
                    it.close();
                } catch (IOException ignored) {
                    // it is closed
                }
            }
            open.clear();
        }

        private void accept() {
            while (true) {
                try {
                    Socket client = listener.accept();
                    Socket there = new Socket(InetAddress.getLoopbackAddress(), server);
                    synchronized (this) {
                        open.add(client);
                        open.add(there);
                    }
                    daemon(() -> copy(client, there));
                    daemon(() -> copy(there, client));
                } catch (IOException ignored) {
                    // the server is down: the client tries another
                }
            }
        }

        private static void copy(Socket from, Socket to) {
            byte[] room = new byte[65536];
            try (from; to) {
                InputStream in = from.getInputStream();
                OutputStream out = to.getOutputStream();
                for (int count = in.read(room); count >= 0; count = in.read(room)) {
                    out.write(room, 0, count);
                    out.flush();
                }
            } catch (IOException ignored) {
                // the other side ended
            }
        }

        private static void daemon(Runnable work) {
            Thread it = new Thread(work);
            it.setDaemon(true);
            it.start();
        }
    }

    private static ZooKeeper connected(String hosts) throws Exception {
        CountDownLatch latch = new CountDownLatch(1);
        ZooKeeper it = new ZooKeeper(hosts, 30_000, event -> {
            if (event.getState() == Watcher.Event.KeeperState.SyncConnected) {
                latch.countDown();
            }
        });
        if (!latch.await(PATIENCE_MS, TimeUnit.MILLISECONDS)) {
            throw new IllegalStateException("no connection to " + hosts);
        }
        return it;
    }

    private static void saw(WatchedEvent event) {
        String type = event.getType().toString();
        if (!type.equals("None") && !type.endsWith("WatchRemoved")) {
            SEEN.computeIfAbsent(event.getType() + " " + event.getPath(), key -> new AtomicInteger()).incrementAndGet();
        }
    }

    private interface Act {
        void run() throws Exception;
    }

    /** Repeats what a lost connection interrupts. */
    private static void insist(Act act) throws Exception {
        long end = System.currentTimeMillis() + PATIENCE_MS;
        while (true) {
            try {
                act.run();
                return;
            } catch (org.apache.zookeeper.KeeperException.ConnectionLossException lost) {
                if (System.currentTimeMillis() > end) {
                    throw lost;
                }
                Thread.sleep(10);
            }
        }
    }

    private static void await(Map<String, Integer> wanted, int round) throws Exception {
        long end = System.currentTimeMillis() + PATIENCE_MS;
        while (true) {
            boolean all = true;
            for (Map.Entry<String, Integer> it : wanted.entrySet()) {
                AtomicInteger count = SEEN.get(it.getKey());
                all &= count != null && count.get() >= it.getValue();
            }
            if (all) {
                break;
            }
            if (System.currentTimeMillis() > end) {
                throw new IllegalStateException("cut " + round + ": lost, of " + wanted + ", seen " + SEEN);
            }
            Thread.sleep(5);
        }
        for (Map.Entry<String, AtomicInteger> it : SEEN.entrySet()) {
            if (!Integer.valueOf(it.getValue().get()).equals(wanted.get(it.getKey()))) {
                throw new IllegalStateException("cut " + round + ": " + it + " where " + wanted.get(it.getKey()) + " was due");
            }
        }
    }

    public static void main(String[] args) throws Exception {
        int cuts = Integer.parseInt(args[0]);
        List<Proxy> proxies = new ArrayList<>();
        StringBuilder hosts = new StringBuilder();
        for (int place = 1; place < args.length; place++) {
            Proxy it = new Proxy(Integer.parseInt(args[place]));
            proxies.add(it);
            hosts.append(place > 1 ? "," : "").append("127.0.0.1:").append(it.port());
        }
        Random random = new Random(5);
        ZooKeeper writer = connected("127.0.0.1:" + args[1]);
        ZooKeeper reader = connected(hosts.toString());
        long session = reader.getSessionId();
        writer.create("/w", new byte[0], ZooDefs.Ids.OPEN_ACL_UNSAFE, CreateMode.PERSISTENT);
        for (int node = 0; node < NODES; node++) {
            writer.create("/w/" + node, new byte[0], ZooDefs.Ids.OPEN_ACL_UNSAFE, CreateMode.PERSISTENT);
        }
        int events = 0;
        for (int round = 1; round <= cuts; round++) {
            SEEN.clear();
            for (int node = 0; node < NODES; node++) {
                String path = "/w/" + node;
                insist(() -> reader.sync("/", (code, at, context) -> { }, null));
                insist(() -> reader.getData(path, CutWatches::saw, null));
                insist(() -> reader.exists(path + "/new", CutWatches::saw));
                insist(() -> reader.getChildren(path, CutWatches::saw));
            }
            boolean before = random.nextBoolean();
            Map<String, Integer> wanted = new java.util.HashMap<>();
            if (before) {
                proxies.forEach(Proxy::cut);
            }
            for (int node = 0; node < NODES; node++) {
                String path = "/w/" + node;
                switch (random.nextInt(4)) {
                    case 0 -> {
                        writer.setData(path, new byte[] {1}, -1);
                        wanted.put("NodeDataChanged " + path, 1);
                    }
                    case 1 -> {
                        writer.create(path + "/new", new byte[0], ZooDefs.Ids.OPEN_ACL_UNSAFE, CreateMode.PERSISTENT);
                        wanted.put("NodeCreated " + path + "/new", 1);
                        wanted.put("NodeChildrenChanged " + path, 1);
                    }
                    default -> { }
                }
                if (!before && node == NODES / 2) {
                    proxies.forEach(Proxy::cut);
                }
            }
            await(wanted, round);
            events += wanted.size();
            // watches that did not fire stay: remove them, so that each round stands alone
            for (int node = 0; node < NODES; node++) {
                String path = "/w/" + node;
                removed(reader, path);
                removed(reader, path + "/new");
                if (writer.exists(path + "/new", false) != null) {
                    writer.delete(path + "/new", -1);
                }
            }
        }
        if (reader.getSessionId() != session) {
            throw new IllegalStateException("the session ended");
        }
        System.out.println(cuts + " cuts, " + events + " events, none lost");
        System.exit(0);
    }

    /** Removes all watches of the path, here and at the server. */
    private static void removed(ZooKeeper reader, String path) throws Exception {
        insist(() -> {
            try {
                reader.removeAllWatches(path, Watcher.WatcherType.Any, false);
            } catch (org.apache.zookeeper.KeeperException.NoWatcherException none) {
                // it fired
            }
        });
    }
}
