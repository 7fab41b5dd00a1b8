package pathclient;

import java.io.IOException;
import java.net.*;
import java.nio.ByteBuffer;
import java.nio.channels.*;
import java.nio.charset.StandardCharsets;
import java.nio.file.*;
import java.util.Map;
import java.util.concurrent.*;
import java.util.concurrent.locks.ReentrantLock;

/**
 * Calls operations of an object that {@code pathserve keep} or {@code pathserve serve} serves, as in
 * {@code try (PathClient book = new PathClient("7000", "phone_book", "ann", 10_000)) { book.call("enter", "ada", "12 34"); }}
 * A client is one session: its calls are done one after the other, also where threads share it. An integer is a Long, a text a
 * String, and a procedure replies null. With a name each call has a key: where the connection breaks, the client comes back and
 * asks again, and each call is done once. Without one, a call whose connection breaks is LOST. The next call makes a new one.
 */
public final class PathClient implements AutoCloseable {
    /** REFUSED: the body said no. FAILED: device, memory or damaged. CANCELLED: it waited. REJECTED: the server did not take the
     * call, or did not open the object: UnknownOp, BadArgs, InUse .. NO_SERVER: nothing was called; where this user may not connect,
     * that is said at once. LOST: it is not known whether the call was done. EXPIRED: the same, since the session of this name is not
     * as this client left it: given up, forgotten, used by somebody else, or what it held was given back meanwhile. */
    public enum Kind { REFUSED, FAILED, CANCELLED, REJECTED, NO_SERVER, LOST, EXPIRED }
    /** There is no reply. The call has changed nothing, unless it is LOST or EXPIRED. The word says why, as that of a refusal; the
     * text is what the server says of it for people, where it does; the message says of which call, too. */
    public static final class CallError extends Exception {
        private static final long serialVersionUID = 1;
        public final Kind kind; public final String word, text;
        CallError(Kind kind, String word, String call, String text) {
            super((kind + " " + word).strip() + (call.isEmpty() ? "" : ": " + call) + (text.isEmpty() ? "" : ": " + text));
            this.kind = kind; this.word = word; this.text = text;
        }
        CallError(Kind kind, String word) { this(kind, word, "", ""); }
    }
    // A line of a server has some 2,100 bytes; times are in milliseconds; between two tries to reach a server passes a time at random.
    private static final int LONGEST = 4096, TRIES = 10, ANSWERS = 2000, AGAIN = 20, SOON = 50, LATE = 1000;
    private static final long NEVER = Long.MAX_VALUE / 2;
    // A connection that stands still is asked for a sign after so many seconds, and then each; behind so many without one it has ended.
    private static final Map<String, Integer> ALIVE = Map.of("TCP_KEEPIDLE", 10, "TCP_KEEPINTERVAL", 5, "TCP_KEEPCOUNT", 3);
    // The path of a socket, or where it is null a host and a port.
    private final String place, opens, path, host;
    private final int port;
    private final boolean hasName;
    private final ReentrantLock turn = new ReentrantLock();
    private final StringBuilder rest = new StringBuilder();
    private final CountDownLatch closing = new CountDownLatch(1);
    private volatile boolean closed, leaving;
    private volatile Selector selector;
    private SocketChannel channel;
    /** Why nobody answered, and whether that is since this user may not connect. */
    private String why;
    private boolean isBarred;
    private int misses;
    /** How long a server is tried, and the key of the next call, where there is a name; and how many calls were given up that the server
     * may have done: so far the next key may be past this one. It may be any one where that is below 0. */
    private long wait, key, givenUp;
    /** Opens an object of the server at this port of this machine, at host:port, or at the path of a socket, which has a slash. It is
     * tried for so long. CLIENT may be null. */
    public PathClient(String place, String name, String client, long wait) throws CallError {
        boolean isPath = place.contains("/");
        int colon = place.lastIndexOf(':');
        this.place = place; this.wait = wait;
        path = isPath ? place : null;
        host = isPath ? null : colon < 0 ? "127.0.0.1" : place.substring(0, colon).replaceFirst("^\\[(.*)\\]$", "$1");
        port = isPath ? 0 : Integer.parseInt(place.substring(colon + 1));
        hasName = client != null;
        opens = "open " + named(name) + (hasName ? " as " + named(client) : "");
        key = connect(NEVER, false);
    }
    /** Calls an operation: its reply, or what is thrown in place of it. */
    public Object call(String operation, Object... arguments) throws CallError { return within(NEVER, operation, arguments); }
    /** The same, but a call that still waits after so many milliseconds is cancelled; two seconds later it ends in any case. */
    public Object within(long time, String operation, Object... arguments) throws CallError {
        String text = named(operation);
        for (Object it : arguments) text += " " + written(it);
        long end = time >= NEVER ? NEVER : now() + time;
        try { if (!turn.tryLock(time, TimeUnit.MILLISECONDS)) throw new CallError(Kind.CANCELLED, "", text, ""); }
        catch (InterruptedException error) { throw new CallError(Kind.CANCELLED, "interrupted", text, ""); }
        try {
            if (closed) throw lost("closed");
            // (so that it is seen first whether the session is as it was left, and nothing is lost that nobody could hear)
            if (channel != null && hasEnded()) drop();
            if (channel == null) comeBack(end);
            return asked(text, end);
        } catch (CallError error) {
            if (error.kind == Kind.EXPIRED) givenUp = -1; else if (error.kind == Kind.LOST && givenUp >= 0) givenUp++;
            if (error.kind.compareTo(Kind.NO_SERVER) >= 0) drop();
            throw new CallError(closed ? Kind.LOST : error.kind, closed ? "closed" : error.word, text, closed ? "" : error.text);
        } finally { turn.unlock(); }
    }
    /** Opens the object anew, where no call is under way. */
    private void comeBack(long end) throws CallError {
        long next = connect(end, false);
        if (hasName && givenUp >= 0 && next > key + givenUp) throw new CallError(Kind.EXPIRED, "the name has called meanwhile");
        key = next; givenUp = 0;
    }
    /** Whether the connection has ended. */
    private boolean hasEnded() {
        try {
            ByteBuffer piece = ByteBuffer.allocate(LONGEST);
            int count = channel.read(piece);
            rest.append(new String(piece.array(), 0, piece.position(), StandardCharsets.ISO_8859_1));
            return count < 0;
        } catch (IOException gone) { return true; }
    }
    /** Leaves the object, for good. A call of another thread that has not ended is LOST. */
    @Override public void close() {
        closed = true;
        closing.countDown();
        if (selector != null) selector.wakeup();
        turn.lock();
        leaving = true;
        try {
            if (channel != null) send("quit", now() + ANSWERS);
            while (channel != null && !answer(now() + ANSWERS).equals("bye")) { /* what comes before it is read */ }
        } catch (IOException | CallError gone) { /* it is gone, as was wanted */ } finally { drop(); turn.unlock(); }
    }
    private static String named(String name) {
        if (name.matches("[A-Za-z][A-Za-z0-9_]{0,63}")) return name;
        throw new IllegalArgumentException(name + " is no name");
    }
    /** An argument as the server reads it. */
    public static String written(Object it) {
        if ((it instanceof Integer || it instanceof Long) && ((Number) it).longValue() >>> 32 == 0) return it.toString();
        if (it instanceof String && ((String) it).matches("[ -~]{0,1000}")) return "'" + ((String) it).replace("'", "''") + "'";
        throw new IllegalArgumentException(it + " is no integer from 0 to 4294967295, and no text of at most 1000 plain characters");
    }
    /** A value that the server wrote. */
    public static Object read(String text) throws CallError {
        if (text.startsWith("'")) return text.substring(1, text.length() - 1).replace("''", "'");
        if (!text.matches("\\d{1,10}")) throw lost("the server wrote " + text);
        return Long.valueOf(text);
    }
    private static CallError lost(String word) { return new CallError(Kind.LOST, word); }
    /** What {@code no WORD}, or {@code no WORD TEXT}, says: the word decides, the text is for people. */
    private static CallError rejected(String answer) {
        String[] words = answer.replaceFirst("^no ", "").split(" ", 2);
        return new CallError(Kind.REJECTED, words[0], "", words.length > 1 ? words[1] : "");
    }
    private static boolean isNo(String answer, String word) { return (answer + " ").startsWith("no " + word + " "); }
    private static long now() { return System.nanoTime() / 1_000_000; }
    /** The reply of a call. Where the connection breaks, it comes back and asks again under the same key. */
    private Object asked(String text, long end) throws CallError {
        boolean isKnown = false;
        for (int tries = 1;; tries++) {
            try {
                return done("call " + (hasName ? "#" + key + " " : "") + text, end);
            } catch (IOException | CallError it) {
                CallError error = it instanceof CallError ? (CallError) it : lost("the server is gone");
                boolean isReused = error.kind == Kind.REJECTED && error.word.equals("KeyReused");
                if (isReused) throw new CallError(Kind.EXPIRED, error.word, "", error.text);
                if (error.kind == Kind.REJECTED && isKnown) throw lost("the server has the call, and wrote no " + error.word);
                if (error.kind != Kind.LOST || !hasName || closed || tries == TRIES || now() >= end) throw error;
                drop(); long next;
                if (tries > 1) pause(tries, end);
                try { next = connect(end, true); } catch (CallError none) { throw new CallError(Kind.LOST, none.word, "", none.text); }
                if (next != key && next != key + 1) throw new CallError(Kind.EXPIRED, "the session is not as it was left");
                if (next == 1) throw lost("the server may have been started anew, and have no keys");
                isKnown = next == key + 1;
            }
        }
    }
    private Object done(String line, long end) throws IOException, CallError {
        send(line, end + ANSWERS);
        String answer = answer(end + ANSWERS);
        if (isNo(answer, "LineTooLong")) drop();
        if (answer.startsWith("no ")) throw rejected(answer);
        boolean isRepeat = hasName && answer.startsWith("repeat ");
        String number = answer.replaceFirst("^accepted ", ""), last = answer.replaceFirst("^repeat ", "");
        if (!isRepeat) {
            if (number.equals(answer)) throw lost("the server wrote " + answer);
            last = line(end);
            if (last == null) send("cancel " + number, end + ANSWERS);
            if (last == null) last = answer(end + ANSWERS);
        }
        String[] words = last.split(" ", 3); String value = words.length > 2 ? words[2] : "";
        boolean isDone = words[0].equals("done"), isLast = isDone || words[0].matches("refused|failed|cancelled");
        if (!isLast || words.length < 2 || !isRepeat && !words[1].equals(number)) throw lost("the server wrote " + last);
        Object reply = !isDone || value.isEmpty() ? null : read(value);
        key++; if (isDone) return reply;
        throw new CallError(Kind.valueOf(words[0].toUpperCase()), value);
    }
    /** Opens the object on a new connection, by this time: the key of the next call. Where a call was sent, it is tried for it also
     * while this user may not connect. */
    private long connect(long latest, boolean wasSent) throws CallError {
        long end = Math.min(now() + wait, latest);
        String answer;
        for (int tries = 1; (answer = attempt(end, Math.max(end, now() + 1000))) == null; pause(tries++, end)) {
            drop();
            misses++;
            boolean isOver = now() >= end || isBarred && !wasSent || Thread.currentThread().isInterrupted();
            if (closed) throw lost("closed");
            if (isOver) throw new CallError(Kind.NO_SERVER, why);
        }
        if (answer.startsWith("opened ")) return hasName ? Long.parseLong(answer.substring(answer.lastIndexOf(' ') + 1)) : 0;
        drop();
        CallError no = rejected(answer);
        throw new CallError(no.kind, no.word, opens, no.text);
    }
    /** The answer to {@code open} on a new connection, or null. While the name is in use it is said again; what was answered last is
     * the answer then. */
    private String attempt(long end, long last) {
        why = "the server at " + place + " says nothing: it may have as many clients as it takes";
        isBarred = false;
        String said = null;
        try {
            selector = Selector.open();
            channel = path != null ? SocketChannel.open(StandardProtocolFamily.UNIX) : SocketChannel.open();
            if (path == null) tune();
            channel.configureBlocking(false).register(selector, 0);
            rest.setLength(0);
            channel.connect(path != null ? UnixDomainSocketAddress.of(path) : new InetSocketAddress(address(), port));
            while (!channel.finishConnect()) if (!await(SelectionKey.OP_CONNECT, last)) return null;
            while (said == null || now() + AGAIN < end) {
                if (said != null) closing.await(AGAIN, TimeUnit.MILLISECONDS);
                send(opens, last);
                String answer = line(last);
                if (answer == null || !isNo(answer, "InUse")) return answer == null ? said : answer;
                said = answer;
            }
            return said;
        } catch (IOException | CallError | InterruptedException error) {
            String word = error instanceof UnknownHostException ? "the host is not known" : error.getMessage();
            why = "no server answers at " + place + (word == null ? "" : ": " + word);
            isBarred = path != null && !Files.isWritable(Path.of(path)) && !Files.notExists(Path.of(path));
            if (error instanceof InterruptedException) Thread.currentThread().interrupt();
            return null;
        }
    }
    /** An address of the host: the next one, where the last one did not answer. */
    private InetAddress address() throws UnknownHostException {
        InetAddress[] all = InetAddress.getAllByName(host);
        return all[misses % all.length];
    }
    /** Has the system end a connection whose other side is gone without a word, as behind a cable that was cut. */
    @SuppressWarnings("unchecked")
    private void tune() throws IOException {
        channel.setOption(StandardSocketOptions.TCP_NODELAY, true).setOption(StandardSocketOptions.SO_KEEPALIVE, true);
        for (SocketOption<?> it : channel.supportedOptions())
            if (ALIVE.containsKey(it.name())) channel.setOption((SocketOption<Integer>) it, ALIVE.get(it.name()));
    }
    private void drop() {
        try { if (channel != null) channel.close(); if (selector != null) selector.close(); } catch (IOException gone) { /* so be it */ }
        channel = null;
    }
    /** Waits behind so many tries to reach a server: at random, and at most twice as long as behind one less, so that clients that have
     * lost a server together do not come back together. */
    private void pause(int tries, long end) {
        long most = Math.min((long) SOON << Math.min(tries, 9), LATE), time = ThreadLocalRandom.current().nextLong(SOON, most + 1);
        try { closing.await(Math.min(time, end - now()), TimeUnit.MILLISECONDS); }
        catch (InterruptedException error) { Thread.currentThread().interrupt(); }
    }
    /** Whether the connection is ready for this by then. */
    private boolean await(int operation, long end) throws IOException, CallError {
        channel.keyFor(selector).interestOps(operation);
        for (long left; (left = end - now()) > 0;) {
            if (closed && !leaving || Thread.currentThread().isInterrupted()) throw lost(closed ? "closed" : "interrupted");
            if (selector.select(it -> { }, left) > 0) return true;
        }
        return false;
    }
    private void send(String line, long end) throws IOException, CallError {
        ByteBuffer bytes = ByteBuffer.wrap((line + "\n").getBytes(StandardCharsets.US_ASCII));
        while (bytes.hasRemaining())
            if (channel.write(bytes) == 0 && !await(SelectionKey.OP_WRITE, end)) throw lost("the server takes nothing");
    }
    /** The next line, or null where it has not come by then; but what answers a cancel says nothing new, and a cut line is none. */
    private String line(long end) throws IOException, CallError {
        for (;;) {
            for (int at; (at = rest.indexOf("\n")) >= 0;) {
                String line = rest.substring(0, at);
                rest.delete(0, at + 1);
                if (!line.startsWith("cancel ")) return line;
            }
            if (!await(SelectionKey.OP_READ, end)) return null;
            ByteBuffer piece = ByteBuffer.allocate(LONGEST);
            if (channel.read(piece) < 0 || rest.length() > LONGEST) throw lost("the server is gone");
            rest.append(new String(piece.array(), 0, piece.position(), StandardCharsets.ISO_8859_1));
        }
    }
    /** The next line, which has to come by then. */
    private String answer(long end) throws IOException, CallError {
        String line = line(end);
        if (line != null) return line;
        throw lost("the server says nothing");
    }
}
