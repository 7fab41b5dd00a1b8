import java.io.*;
import java.util.*;
import java.util.regex.*;
import pathclient.PathClient;

/** Drives the client for Java: gate/try_client says how. */
public final class Drive {
    private static String message = "";

    private static String told(PathClient.CallError error) {
        message = error.getMessage();
        switch (error.kind) {
            case REJECTED: return "no " + error.word;
            case REFUSED: case FAILED: return error.kind.name().toLowerCase() + " " + error.word;
            default: return error.kind.name().toLowerCase().replace('_', ' ');
        }
    }

    /** The words of a call: its operation, and its arguments. */
    private static Object[] words(String line) throws PathClient.CallError {
        List<Object> found = new ArrayList<>(List.of(line.split(" ")[2]));
        Matcher it = Pattern.compile("'(?:[^']|'')*'|\\d+").matcher(line.split(" ", 4).length < 4 ? "" : line.split(" ", 4)[3]);
        while (it.find()) found.add(PathClient.read(it.group()));
        return found.toArray();
    }

    public static void main(String[] none) throws Exception {
        BufferedReader in = new BufferedReader(new InputStreamReader(System.in));
        System.out.println("can values within name tells host pauses alive");
        PathClient it = null;
        for (String line; (line = in.readLine()) != null;) {
            String[] words = line.split(" ");
            try {
                if (words[0].equals("open")) {
                    if (it != null) it.close();
                    it = null;
                    it = new PathClient(words[1], words[2], words[4].equals("-") ? null : words[4], Long.parseLong(words[3]));
                    System.out.println("opened");
                } else if (words[0].equals("call")) {
                    Object[] all = words(line), arguments = Arrays.copyOfRange(all, 1, all.length);
                    long time = Long.parseLong(words[1]);
                    Object came = time == 0 ? it.call((String) all[0], arguments) : it.within(time, (String) all[0], arguments);
                    System.out.println(came == null ? "done" : "done " + PathClient.written(came));
                } else if (words[0].equals("told")) {
                    System.out.println(message);
                } else {
                    it.close();
                    it = null;
                    System.out.println("closed");
                }
            } catch (PathClient.CallError error) {
                System.out.println(told(error));
            }
        }
        if (it != null) it.close();
    }
}
