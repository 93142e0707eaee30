// The steps of run_drivers by the Java driver: Steps URI COLLECTION

import com.mongodb.MongoClient;
import com.mongodb.MongoClientOptions;
import com.mongodb.MongoClientURI;
import com.mongodb.client.MongoCollection;
import com.mongodb.connection.ServerConnectionState;
import com.mongodb.event.CommandFailedEvent;
import com.mongodb.event.CommandListener;
import com.mongodb.event.CommandStartedEvent;
import com.mongodb.event.CommandSucceededEvent;
import com.mongodb.event.ConnectionAddedEvent;
import com.mongodb.event.ConnectionPoolListenerAdapter;
import com.mongodb.event.ConnectionRemovedEvent;
import com.mongodb.event.ServerDescriptionChangedEvent;
import com.mongodb.event.ServerHeartbeatFailedEvent;
import com.mongodb.event.ServerHeartbeatSucceededEvent;
import com.mongodb.event.ServerListenerAdapter;
import com.mongodb.event.ServerMonitorListenerAdapter;
import java.util.ArrayList;
import java.util.List;
import java.util.concurrent.Callable;
import java.util.concurrent.ConcurrentLinkedQueue;
import java.util.concurrent.atomic.AtomicInteger;
import org.bson.Document;

public class Steps {
    private static boolean failed = false;

    /* What the driver's own log says. */
    private static final AtomicInteger connections = new AtomicInteger();
    private static final AtomicInteger heartbeats = new AtomicInteger();
    private static final ConcurrentLinkedQueue<String> faults = new ConcurrentLinkedQueue<>();
    private static volatile boolean closing = false;

    /* A connection that is removed while the client is open was lost, since none grows too old by the driver's own defaults. */
    private static final class Pool extends ConnectionPoolListenerAdapter {
        @Override
        public void connectionAdded(ConnectionAddedEvent event) {
            connections.incrementAndGet();
        }

        @Override
        public void connectionRemoved(ConnectionRemovedEvent event) {
            if (!closing) {
                faults.add("connection removed: " + event.getConnectionId());
            }
        }
    }

    private static final class Heartbeats extends ServerMonitorListenerAdapter {
        @Override
        public void serverHeartbeatSucceeded(ServerHeartbeatSucceededEvent event) {
            heartbeats.incrementAndGet();
        }

        @Override
        public void serverHeartbeatFailed(ServerHeartbeatFailedEvent event) {
            faults.add("heartbeat failed: " + event.getThrowable());
        }
    }

    private static final class Servers extends ServerListenerAdapter {
        @Override
        public void serverDescriptionChanged(ServerDescriptionChangedEvent event) {
            boolean wasKnown = event.getPreviousDescription().getState() == ServerConnectionState.CONNECTED;
            if (wasKnown && event.getNewDescription().getState() != ServerConnectionState.CONNECTED) {
                faults.add("server lost: " + event.getNewDescription().getException());
            }
        }
    }

    private static final class Commands implements CommandListener {
        @Override
        public void commandStarted(CommandStartedEvent event) {}

        @Override
        public void commandSucceeded(CommandSucceededEvent event) {}

        @Override
        public void commandFailed(CommandFailedEvent event) {
            faults.add(event.getCommandName() + " failed: " + event.getThrowable());
        }
    }

    private static void step(String name, Callable<Object> call) {
        try {
            call.call();
            System.out.println(name + " ok");
        } catch (Exception error) {
            failed = true;
            System.out.println(name + " FAILED " + error);
        }
    }

    private static Object is(long found, long wanted) {
        if (found != wanted) {
            throw new IllegalStateException(found + " in place of " + wanted);
        }
        return null;
    }

    public static void main(String[] args) throws InterruptedException {
        MongoClientOptions.Builder log = MongoClientOptions.builder()
            .addConnectionPoolListener(new Pool())
            .addServerMonitorListener(new Heartbeats())
            .addServerListener(new Servers())
            .addCommandListener(new Commands());
        MongoClient client = new MongoClient(new MongoClientURI(args[0], log));
        MongoCollection<Document> items = client.getDatabase("shop").getCollection(args[1]);
        List<Document> made = new ArrayList<>();
        for (int i = 0; i < 1000; i++) {
            made.add(new Document("_id", i).append("a", i));
        }
        Document few = new Document("a", new Document("$lt", 10));
        Document set = new Document("$set", new Document("a", -1));
        step("ping", () -> client.getDatabase("admin").runCommand(new Document("ping", 1)));
        step("insert", () -> { items.insertMany(made); return null; });
        step("find", () -> is(items.find(few).sort(new Document("a", -1)).limit(7).batchSize(2).into(new ArrayList<>()).size(), 7));
        step("update", () -> is(items.updateOne(new Document("_id", 2), set).getModifiedCount(), 1));
        step("delete", () -> is(items.deleteOne(new Document("_id", 3)).getDeletedCount(), 1));
        step("count", () -> is(items.count(), 999));
        step("drop", () -> { items.drop(); return null; });
        Thread.sleep(11000);
        step("ping_again", () -> client.getDatabase("admin").runCommand(new Document("ping", 1)));
        closing = true;
        client.close();
        System.out.println("log: " + connections + " connections, " + heartbeats + " heartbeats");
        step("log", () -> {
            if (!faults.isEmpty()) {
                throw new IllegalStateException(faults.toString());
            }
            return is(Math.min(heartbeats.get(), 2), 2);
        });
        System.exit(failed ? 1 : 0);
    }
}
