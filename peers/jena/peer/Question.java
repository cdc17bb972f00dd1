package peer;

import java.util.ArrayList;
import java.util.Arrays;
import java.util.LinkedHashSet;
import java.util.List;
import java.util.regex.Matcher;
import java.util.regex.Pattern;
import org.apache.jena.query.QueryFactory;
import org.apache.jena.sparql.core.Var;

/** A question of document 01 (n atoms, m head variables, 3n atom words, m head words) as SPARQL. */
final class Question {
    private static final Pattern WORD = Pattern.compile("\\bw(\\d+)\\b");

    /** The SPARQL text. */
    final String text;
    /** The head variables, repeated ones included. */
    final List<Var> head;
    /** Whether it is put to the explicit triples, and not to all that hold. */
    final boolean explicit;

    /** The question of these words. */
    Question(int[] words) {
        int atoms = 2 + 3 * words[0];
        if (words.length != atoms + words[1]) {
            throw new IllegalArgumentException("a question of another length");
        }
        head = new ArrayList<>();
        Arrays.stream(words, atoms, words.length).forEach(word -> head.add(Var.alloc(Words.variable(word))));
        explicit = false;
        text = select(head) + " WHERE {" + pattern(Arrays.copyOfRange(words, 2, atoms)) + " }";
    }

    /** A question put to the explicit triples, as the parts of a SPARQL text in which w and a word stand for a node. */
    Question(List<String> parts) {
        Matcher words = WORD.matcher(String.join(" ", parts));
        explicit = true;
        text = words.replaceAll(word -> Matcher.quoteReplacement(Words.sparql(Integer.parseUnsignedInt(word.group(1)))));
        head = QueryFactory.create(text).getProjectVars();
    }

    /** The projection; SPARQL needs a repeated variable once. */
    private static String select(List<Var> head) {
        StringBuilder text = new StringBuilder("SELECT DISTINCT");
        new LinkedHashSet<>(head).forEach(variable -> text.append(" ?").append(variable.getVarName()));
        return text.toString();
    }

    /** The basic graph pattern. */
    private static String pattern(int[] words) {
        StringBuilder text = new StringBuilder();
        for (int i = 0; i < words.length; i++) {
            text.append(' ').append(Words.sparql(words[i])).append(i % 3 == 2 ? " ." : "");
        }
        return text.toString();
    }
}
