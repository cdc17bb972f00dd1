package peer;

import java.io.BufferedOutputStream;
import java.io.BufferedReader;
import java.io.IOException;
import java.io.InputStreamReader;
import java.io.PrintStream;
import java.nio.file.Files;
import java.nio.file.Path;
import java.util.ArrayList;
import java.util.Arrays;
import java.util.List;
import java.util.function.LongSupplier;
import java.util.stream.Collectors;
import java.util.stream.Stream;
import org.apache.jena.graph.Node;
import org.apache.jena.graph.Triple;
import org.apache.jena.query.Query;
import org.apache.jena.query.QueryFactory;
import org.apache.jena.reasoner.rulesys.Rule;

/**
 * Apache Jena behind a line protocol on standard input and output. Words are decimal; each command is answered by lines of rows,
 * where it has any, and a last line that starts with "ok" or "error".
 *
 * <pre>
 * rules FILE        takes another file of rules; an empty store
 * clear             an empty store
 * add N             takes N lines of three words each: explicit triples       ok NANOSECONDS
 * withdraw N        likewise takes them out; "work" must follow               ok NANOSECONDS
 * work              works out afresh what holds                               ok NANOSECONDS
 * facts             a row of three words for each fact that holds             ok COUNT
 * text WORDS        the SPARQL text of a question                             ok TEXT
 * ask WORDS         a row of words for each answer of a question              ok COUNT
 * time N WORDS      answers a question N times, without giving its rows       ok COUNT NANOSECONDS, N of them
 * read FILE OUT     reads a file of N-Triples, and writes its triples in order  ok COUNT
 * hold FILE OUT     likewise writes the facts that hold by a file            ok COUNT
 * time-read N FILE  reads a file of N-Triples N times, and counts its triples  ok COUNT NANOSECONDS, N of them
 * time-number N FILE  likewise, and numbers and counts its distinct terms     ok COUNT NANOSECONDS, N of them
 * time-write N FILE  reads a file of N-Triples into a graph, and writes that N times  ok BYTES NANOSECONDS, N of them
 * ask-explicit TEXT, time-explicit N TEXT   likewise for SPARQL among the explicit triples, where w and a word stand for a node
 * </pre>
 *
 * After "work", "add" keeps what holds up to date. The nanoseconds of "add" and "withdraw" are those of the store, not of reading the
 * lines; those of "time" go from the parsed text to the last row; those of "time-read" and "time-number" from the file's bytes in memory to
 * the last triple; those of "time-write" from the graph to the last byte in memory.
 */
public final class Server {
    private final BufferedReader input;
    private final PrintStream output;
    private List<Rule> rules;
    private Store store;

    /** A server with an empty store. */
    private Server(BufferedReader input, PrintStream output, String rules) {
        this.input = input;
        this.output = output;
        useRules(rules);
    }

    /** Answers each line of standard input; the one argument is the file of rules. */
    public static void main(String[] arguments) throws IOException {
        BufferedReader input = new BufferedReader(new InputStreamReader(System.in));
        PrintStream output = new PrintStream(new BufferedOutputStream(System.out, 1 << 16), false);
        Server server = new Server(input, output, arguments[0]);
        for (String line = input.readLine(); line != null; line = input.readLine()) {
            server.answer(line);
        }
    }

    /** Takes a file of rules, and an empty store. */
    private void useRules(String file) {
        rules = Rule.rulesFromURL(file);
        store = new Store(rules);
    }

    /** Answers one command. */
    private void answer(String line) {
        String reply;
        try {
            List<String> words = Arrays.asList(line.split(" "));
            reply = run(words.get(0), words.subList(1, words.size()));
        } catch (Exception failure) {
            reply = "error " + failure;
        }
        output.println(reply);
        output.flush();
    }

    /** Runs a command: its last line. */
    private String run(String command, List<String> arguments) throws IOException {
        switch (command) {
            case "rules":
                useRules(arguments.get(0));
                return "ok";
            case "clear":
                store = new Store(rules);
                return "ok";
            case "add": {
                List<Triple> triples = triples(arguments.get(0));
                return "ok " + nanoseconds(() -> store.add(triples));
            }
            case "withdraw": {
                List<Triple> triples = triples(arguments.get(0));
                return "ok " + nanoseconds(() -> store.withdraw(triples));
            }
            case "work":
                return "ok " + nanoseconds(store::work);
            case "facts":
                return "ok " + facts();
            case "text":
                return "ok " + question(arguments).text;
            case "ask":
                return "ok " + ask(question(arguments));
            case "time":
                return "ok " + time(Integer.parseInt(arguments.get(0)), question(arguments.subList(1, arguments.size())));
            case "read":
                return "ok " + Reader.read(Path.of(arguments.get(0)), Path.of(arguments.get(1)));
            case "hold":
                return "ok " + Reader.hold(new Store(rules), Path.of(arguments.get(0)), Path.of(arguments.get(1)));
            case "time-read": {
                byte[] file = Files.readAllBytes(Path.of(arguments.get(1)));
                return "ok " + times(Integer.parseInt(arguments.get(0)), () -> Numbering.triples(file));
            }
            case "time-number": {
                byte[] file = Files.readAllBytes(Path.of(arguments.get(1)));
                return "ok " + times(Integer.parseInt(arguments.get(0)), () -> Numbering.terms(file));
            }
            case "time-write": {
                Rewriter writer = new Rewriter(Files.readAllBytes(Path.of(arguments.get(1))));
                return "ok " + times(Integer.parseInt(arguments.get(0)), writer::write);
            }
            case "ask-explicit":
                return "ok " + ask(new Question(arguments));
            case "time-explicit":
                return "ok " + time(Integer.parseInt(arguments.get(0)), new Question(arguments.subList(1, arguments.size())));
            default:
                return "error no command: " + command;
        }
    }

    /** The triples on so many lines. */
    private List<Triple> triples(String count) throws IOException {
        List<Triple> triples = new ArrayList<>();
        for (int i = Integer.parseInt(count); i > 0; i--) {
            triples.add(Words.triple(Words.parse(Arrays.asList(input.readLine().split(" ")))));
        }
        return triples;
    }

    /** A question from its words. */
    private static Question question(List<String> words) {
        return new Question(Words.parse(words));
    }

    /** How long some work takes. */
    private static long nanoseconds(Runnable work) {
        long start = System.nanoTime();
        work.run();
        return System.nanoTime() - start;
    }

    /** Prints the nodes of a row as words. */
    private void print(Stream<Node> row) {
        output.println(row.map(node -> Integer.toUnsignedString(Words.word(node))).collect(Collectors.joining(" ")));
    }

    /** Prints the facts that hold: their number. */
    private long facts() {
        long[] count = {0};
        store.facts(fact -> {
            print(Stream.of(fact.getSubject(), fact.getPredicate(), fact.getObject()));
            count[0]++;
        });
        return count[0];
    }

    /** Prints the rows of a question: their number. */
    private long ask(Question question) {
        long[] count = {0};
        store.ask(QueryFactory.create(question.text), question.explicit, row -> {
            print(question.head.stream().map(row::get));
            count[0]++;
        });
        return count[0];
    }

    /** Answers a question so many times: the number of its rows, and how long each time took. */
    private String time(int times, Question question) {
        Query query = QueryFactory.create(question.text);
        return times(times, () -> {
            long[] count = {0};
            store.ask(query, question.explicit, row -> {
                question.head.forEach(row::get);
                count[0]++;
            });
            return count[0];
        });
    }

    /** Does some work so many times: what it counted, and how long each time took. */
    private static String times(int times, LongSupplier work) {
        long[] count = {0};
        StringBuilder each = new StringBuilder();
        for (int i = 0; i < times; i++) {
            each.append(' ').append(nanoseconds(() -> count[0] = work.getAsLong()));
        }
        return count[0] + each.toString();
    }
}
