// Logs two records as the given configuration says, into the database at the port that is given.
import org.apache.logging.log4j.LogManager;
import org.apache.logging.log4j.Logger;

class Log4j {
    public static void main(String[] words) {
        System.setProperty("port", words[1]);
        System.setProperty("log4j.configurationFile", words[0]);
        Logger log = LogManager.getLogger("fruit");
        log.info("an apple");
        log.error("a pear", new IllegalStateException("eaten"));
        LogManager.shutdown();
    }
}
