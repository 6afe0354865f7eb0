// Calls of LightCouch, the Java client, on the database `db` at the port that is given. Prints one line for each.
import java.util.List;
import java.util.Map;
import java.util.TreeMap;
import org.lightcouch.CouchDbClient;
import org.lightcouch.DocumentConflictException;
import org.lightcouch.NoDocumentException;
import org.lightcouch.Response;

class LightCouch {
    private static Map<String, Object> document(String id, int number) {
        Map<String, Object> made = new TreeMap<>();
        made.put("_id", id);
        made.put("n", number);
        return made;
    }

    public static void main(String[] words) {
        CouchDbClient client = new CouchDbClient("db", true, "http", "127.0.0.1", Integer.parseInt(words[0]), null, null);
        System.out.println("version " + client.context().serverVersion());
        System.out.println("databases " + client.context().getAllDbs());

        Response saved = client.save(document("a", 1));
        System.out.println("save " + saved.getId() + " " + saved.getRev().startsWith("1-"));
        System.out.println("contains " + client.contains("a") + " " + client.contains("b"));
        Map<String, Object> changed = document("a", 2);
        changed.put("_rev", saved.getRev());
        Response updated = client.update(changed);
        System.out.println("update " + updated.getRev().startsWith("2-"));
        try {
            client.update(changed);
        } catch (DocumentConflictException conflict) {
            System.out.println("conflict " + conflict.getMessage());
        }
        System.out.println("find " + client.find(Map.class, "a").get("n"));
        System.out.println("remove " + client.remove("a", updated.getRev()).getRev().startsWith("3-"));
        try {
            client.find(Map.class, "a");
        } catch (NoDocumentException missing) {
            System.out.println("removed " + missing.getMessage());
        }
        List<Response> bulk = client.bulk(List.of(document("c", 3), document("d", 4)), true);
        System.out.println("bulk " + bulk.size());
        System.out.println("findDocs " + client.findDocs("{\"selector\":{\"n\":{\"$gt\":3}}}", Map.class).size());
        client.context().ensureFullCommit();
        client.shutdown();
        System.out.println("end");
    }
}
