import java.io.BufferedReader;
import java.io.IOException;
import java.io.InputStreamReader;
import java.net.URI;
import java.net.http.HttpClient;
import java.net.http.HttpRequest;
import java.net.http.HttpRequest.BodyPublisher;
import java.net.http.HttpRequest.BodyPublishers;
import java.net.http.HttpResponse;
import java.net.http.HttpResponse.BodyHandlers;
import java.nio.file.Path;
import java.time.Duration;
import java.util.Set;

/**
 * A bank's requests by Java's own client. Each line of standard input has a URL, a key, a method and a body, with tabs
 * between them; a body @FILE is that of a file. Prints for each the status of the reply, its body, and a line with a
 * dot.
 */
public class Client {
    private static final int TRIES = 8;
    private static final int MILLISECONDS_BETWEEN = 1000;
    private static final Duration TIME = Duration.ofSeconds(60);
    // (the request may or may not have been carried out: the same request again tells)
    private static final Set<Integer> AGAIN = Set.of(429, 502, 503, 504);

    // (by itself it would first ask for another version of HTTP)
    private static final HttpClient CLIENT = HttpClient.newBuilder().version(HttpClient.Version.HTTP_1_1).build();

    /** Returns the reply to a request, which is sent again until there is one. */
    private static HttpResponse<String> asked(HttpRequest request) throws InterruptedException {
        for (int tried = 0; tried < TRIES; tried++) {
            try {
                HttpResponse<String> reply = CLIENT.send(request, BodyHandlers.ofString());
                if (!AGAIN.contains(reply.statusCode())) {
                    return reply;
                }
            } catch (IOException noReply) {
                // (the next try)
            }
            Thread.sleep(MILLISECONDS_BETWEEN);
        }
        throw new IllegalStateException("no reply");
    }

    private static HttpRequest request(String[] words) throws IOException {
        String body = words.length > 3 ? words[3] : "";
        BodyPublisher sent = BodyPublishers.noBody();
        if (words[2].equals("POST")) {
            boolean isFile = body.startsWith("@");
            sent = isFile ? BodyPublishers.ofFile(Path.of(body.substring(1))) : BodyPublishers.ofString(body);
        }
        return HttpRequest.newBuilder(URI.create(words[0])).timeout(TIME).header("desk-key", words[1])
                .method(words[2], sent).build();
    }

    public static void main(String[] none) throws Exception {
        BufferedReader lines = new BufferedReader(new InputStreamReader(System.in));
        for (String line = lines.readLine(); line != null; line = lines.readLine()) {
            HttpResponse<String> reply = asked(request(line.split("\t")));
            System.out.print(reply.statusCode() + "\n" + reply.body() + "\n.\n");
            System.out.flush();
        }
    }
}
