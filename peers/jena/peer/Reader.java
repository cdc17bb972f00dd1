package peer;

import java.io.BufferedWriter;
import java.io.IOException;
import java.io.InputStream;
import java.io.UncheckedIOException;
import java.io.Writer;
import java.nio.file.Files;
import java.nio.file.Path;
import java.util.ArrayList;
import java.util.List;
import java.util.function.Consumer;
import org.apache.jena.graph.Node;
import org.apache.jena.graph.Triple;
import org.apache.jena.riot.Lang;
import org.apache.jena.riot.RDFParser;
import org.apache.jena.riot.lang.LabelToNode;
import org.apache.jena.riot.system.ErrorHandlerFactory;
import org.apache.jena.riot.system.StreamRDF;
import org.apache.jena.riot.system.StreamRDFBase;
import org.apache.jena.vocabulary.XSD;

/** Jena's reader of N-Triples: a line of N-Triples for each triple that it reads, in file order, blank nodes by their labels. */
final class Reader extends StreamRDFBase {
    private final Writer output;
    private long count;

    private Reader(Writer output) {
        this.output = output;
    }

    /** Reads a file, and writes what was read: the number of triples. */
    static long read(Path file, Path written) throws IOException {
        InputStream input = Files.newInputStream(file);
        return write(written, reader -> parse(input, reader));
    }

    /** Reads a file, works out what holds in a store, and writes the facts of that: the number of facts. */
    static long hold(Store store, Path file, Path written) throws IOException {
        List<Triple> triples = new ArrayList<>();
        parse(Files.newInputStream(file), new StreamRDFBase() {
            @Override
            public void triple(Triple triple) {
                triples.add(triple);
            }
        });
        store.add(triples);
        store.work();
        return write(written, reader -> store.facts(reader::triple));
    }

    /** Writes the triples that a reader is given: their number. */
    private static long write(Path written, Consumer<Reader> give) throws IOException {
        try (BufferedWriter output = Files.newBufferedWriter(written)) {
            Reader reader = new Reader(output);
            give.accept(reader);
            return reader.count;
        }
    }

    /** Gives each triple of some input, in its order. */
    static void parse(InputStream input, StreamRDF each) {
        RDFParser.create()
            .source(input)
            .lang(Lang.NTRIPLES)
            .labelToNode(LabelToNode.createUseLabelAsGiven())
            .errorHandler(ErrorHandlerFactory.errorHandlerNoWarnings)
            .checking(false)
            .parse(each);
    }

    @Override
    public void triple(Triple triple) {
        try {
            output.write(text(triple.getSubject()) + " " + text(triple.getPredicate()) + " " + text(triple.getObject()) + " .\n");
        } catch (IOException failure) {
            throw new UncheckedIOException(failure);
        }
        count++;
    }

    /** A term of N-Triples. */
    private static String text(Node node) {
        if (node.isURI()) {
            return "<" + node.getURI() + ">";
        }
        if (node.isBlank()) {
            return "_:" + node.getBlankNodeLabel();
        }
        String string = "\"" + escaped(node.getLiteralLexicalForm()) + "\"";
        if (!node.getLiteralLanguage().isEmpty()) {
            return string + "@" + node.getLiteralLanguage();
        }
        String type = node.getLiteralDatatypeURI();
        return type.equals(XSD.xstring.getURI()) ? string : string + "^^<" + type + ">";
    }

    /** The four characters escaped that cannot stand in a string. */
    private static String escaped(String string) {
        return string.replace("\\", "\\\\").replace("\"", "\\\"").replace("\n", "\\n").replace("\r", "\\r");
    }
}
