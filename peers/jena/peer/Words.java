package peer;

import java.util.List;
import org.apache.jena.graph.Node;
import org.apache.jena.graph.NodeFactory;
import org.apache.jena.graph.Triple;
import org.apache.jena.vocabulary.RDF;
import org.apache.jena.vocabulary.RDFS;

/** The words of document 01 as RDF nodes, and back. */
final class Words {
    private static final String URI = "urn:uri:";
    private static final String BLANK = "urn:blank:";

    /** The vocabulary: words 1 to 5, in order. */
    private static final List<Node> VOCABULARY =
        List.of(RDF.type.asNode(), RDFS.subClassOf.asNode(), RDFS.subPropertyOf.asNode(), RDFS.domain.asNode(), RDFS.range.asNode());

    private Words() {}

    /** Bits 31 and 30: 0 URI, 1 blank, 2 literal, 3 variable. */
    private static int kind(int word) {
        return word >>> 30;
    }

    /** The low 30 bits. */
    private static int number(int word) {
        return word & 0x3fffffff;
    }

    /** Whether a word is a variable. */
    static boolean isVariable(int word) {
        return kind(word) == 3;
    }

    /** The name of a variable in SPARQL, without its question mark. */
    static String variable(int word) {
        return "v" + number(word);
    }

    /** The node of a word that is no variable. No question can name a blank, so a blank may be an IRI of its own. */
    static Node node(int word) {
        int number = number(word);
        switch (kind(word)) {
            case 0:
                return number >= 1 && number <= 5 ? VOCABULARY.get(number - 1) : NodeFactory.createURI(URI + number);
            case 1:
                return NodeFactory.createURI(BLANK + number);
            case 2:
                return NodeFactory.createLiteral(Integer.toString(number));
            default:
                throw new IllegalArgumentException("a variable in a triple");
        }
    }

    /** The word of a node that {@link #node} made. */
    static int word(Node node) {
        if (node.isLiteral()) {
            return 2 << 30 | Integer.parseInt(node.getLiteralLexicalForm());
        }
        String iri = node.getURI();
        if (iri.startsWith(URI)) {
            return Integer.parseInt(iri.substring(URI.length()));
        }
        if (iri.startsWith(BLANK)) {
            return 1 << 30 | Integer.parseInt(iri.substring(BLANK.length()));
        }
        return VOCABULARY.indexOf(node) + 1;
    }

    /** The triple of three words. */
    static Triple triple(int[] words) {
        return Triple.create(node(words[0]), node(words[1]), node(words[2]));
    }

    /** A word as it stands in SPARQL. */
    static String sparql(int word) {
        if (isVariable(word)) {
            return "?" + variable(word);
        }
        Node node = node(word);
        return node.isLiteral() ? '"' + node.getLiteralLexicalForm() + '"' : '<' + node.getURI() + '>';
    }

    /** Words from decimal text. */
    static int[] parse(List<String> texts) {
        return texts.stream().mapToInt(Integer::parseUnsignedInt).toArray();
    }
}
