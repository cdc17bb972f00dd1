package peer;

import java.io.ByteArrayInputStream;
import java.io.ByteArrayOutputStream;
import org.apache.jena.graph.Factory;
import org.apache.jena.graph.Graph;
import org.apache.jena.riot.Lang;
import org.apache.jena.riot.RDFWriter;
import org.apache.jena.riot.system.StreamRDFLib;

/** Jena's writer of N-Triples: the graph of a file, written to memory again and again. */
final class Rewriter {
    private final Graph graph = Factory.createGraphMem();
    private final ByteArrayOutputStream output;

    /** The graph of a file of N-Triples, and room for as many bytes as it has. */
    Rewriter(byte[] file) {
        Reader.parse(new ByteArrayInputStream(file), StreamRDFLib.graph(graph));
        output = new ByteArrayOutputStream(file.length);
    }

    /** Writes the graph as N-Triples: the number of bytes. */
    long write() {
        output.reset();
        RDFWriter.create().source(graph).lang(Lang.NTRIPLES).output(output);
        return output.size();
    }
}
