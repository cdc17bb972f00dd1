package peer;

import java.io.ByteArrayInputStream;
import java.util.ArrayList;
import java.util.HashMap;
import java.util.List;
import java.util.Map;
import org.apache.jena.graph.Node;
import org.apache.jena.graph.Triple;
import org.apache.jena.riot.lang.StreamRDFCounting;
import org.apache.jena.riot.system.StreamRDFBase;
import org.apache.jena.riot.system.StreamRDFLib;

/** Triples as rows of numbers: each distinct term gets the next number. */
final class Numbering extends StreamRDFBase {
    private final Map<Node, Integer> numbers = new HashMap<>();
    private final List<int[]> rows = new ArrayList<>();

    /** Reads a file of N-Triples, and counts its triples. */
    static long triples(byte[] file) {
        StreamRDFCounting counting = StreamRDFLib.count();
        Reader.parse(new ByteArrayInputStream(file), counting);
        return counting.countTriples();
    }

    /** Reads a file of N-Triples, numbers its terms, and counts them. */
    static long terms(byte[] file) {
        Numbering numbering = new Numbering();
        Reader.parse(new ByteArrayInputStream(file), numbering);
        return numbering.numbers.size();
    }

    @Override
    public void triple(Triple triple) {
        rows.add(new int[] {number(triple.getSubject()), number(triple.getPredicate()), number(triple.getObject())});
    }

    /** The number of a term. */
    private int number(Node node) {
        return numbers.computeIfAbsent(node, term -> numbers.size());
    }
}
