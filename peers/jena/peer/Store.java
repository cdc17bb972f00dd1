package peer;

import java.util.List;
import java.util.function.Consumer;
import org.apache.jena.graph.Factory;
import org.apache.jena.graph.Graph;
import org.apache.jena.graph.Node;
import org.apache.jena.graph.Triple;
import org.apache.jena.query.Query;
import org.apache.jena.query.QueryExecution;
import org.apache.jena.query.QueryExecutionFactory;
import org.apache.jena.query.ResultSet;
import org.apache.jena.rdf.model.Model;
import org.apache.jena.rdf.model.ModelFactory;
import org.apache.jena.reasoner.InfGraph;
import org.apache.jena.reasoner.rulesys.GenericRuleReasoner;
import org.apache.jena.reasoner.rulesys.Rule;
import org.apache.jena.sparql.engine.binding.Binding;
import org.apache.jena.util.iterator.ExtendedIterator;
import org.apache.jena.vocabulary.RDFS;

/** Explicit triples, and what holds by the rules. */
final class Store {
    /** The properties of statements; a triple with any other is a fact. */
    private static final List<Node> OF_STATEMENTS =
        List.of(RDFS.subClassOf.asNode(), RDFS.subPropertyOf.asNode(), RDFS.domain.asNode(), RDFS.range.asNode());

    private final List<Rule> rules;
    private final Graph explicit = Factory.createGraphMem();
    /** What holds, once it has been worked out. */
    private InfGraph holding;

    Store(List<Rule> rules) {
        this.rules = rules;
    }

    /** Adds explicit triples; where what holds has been worked out, it is kept up to date. */
    void add(List<Triple> triples) {
        Graph graph = holding == null ? explicit : holding;
        triples.forEach(graph::add);
    }

    /** Takes explicit triples out. What holds must be worked out again: Jena's own upkeep of a deletion loses rows. */
    void withdraw(List<Triple> triples) {
        triples.forEach(explicit::delete);
        holding = null;
    }

    /** Works out afresh what holds. */
    void work() {
        GenericRuleReasoner reasoner = new GenericRuleReasoner(rules);
        reasoner.setMode(GenericRuleReasoner.FORWARD_RETE);
        reasoner.setDerivationLogging(false);
        holding = reasoner.bind(explicit);
        holding.prepare();
    }

    /** Gives each fact that holds. */
    void facts(Consumer<Triple> each) {
        ExtendedIterator<Triple> triples = holding.find();
        triples.filterDrop(triple -> OF_STATEMENTS.contains(triple.getPredicate())).forEachRemaining(each);
    }

    /** Gives each row of a question among the explicit triples or all that hold; the query is the question's text, parsed. */
    void ask(Query query, boolean amongExplicit, Consumer<Binding> each) {
        Model model = ModelFactory.createModelForGraph(amongExplicit ? explicit : holding);
        try (QueryExecution execution = QueryExecutionFactory.create(query, model)) {
            ResultSet rows = execution.execSelect();
            while (rows.hasNext()) {
                each.accept(rows.nextBinding());
            }
        }
    }
}
