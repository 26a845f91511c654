import java.io.IOException;
import java.nio.file.Files;
import java.nio.file.Path;
import siodlomil.Siodlomil;

/**
 * The stack reserve of task tables with a limit on the chains that the paper's Algorithm 1 opens:
 *
 * <pre>java Within TABLE...</pre>
 *
 * does from Java what examples/within.c does from C, and prints the same.
 */
public final class Within {
    /** More chains than figure 2 opens. */
    private static final int MANY_CHAINS = 1000;

    private Within() {}

    /**
     * Prints the reserve that is found within so many opened chains and returns how many were opened; where they do not
     * suffice, prints the bounds that are known all the same, and returns 0.
     */
    private static long printWithin(byte[] image, long[] map, long limit) {
        short[] ids = new short[Siodlomil.CHAIN_IDS];
        Siodlomil.BoundsWithin answer = Siodlomil.boundsWithin(image, map, ids, limit);
        String within = "within " + limit + " chains: ";
        if (answer.isAccepted()) {
            System.out.println(within + "reserve " + answer.chain + ", opened " + answer.opened);
        } else if (answer.hasGivenUp()) {
            System.out.println(within + "refused " + answer.number + " at " + answer.place + ", path " + answer.path
                + ", transactions " + answer.transactions);
        }
        return answer.opened;
    }

    public static void main(String[] words) throws IOException {
        if (words.length == 0) {
            System.err.println("usage: Within TABLE...");
            System.exit(1);
        }
        for (String word : words) {
            byte[] image = Files.readAllBytes(Path.of(word));
            long[] map = new long[Siodlomil.MAP_ROWS];
            Siodlomil.Answer filled = Siodlomil.map(image, map);
            if (!filled.isAccepted()) {
                System.out.println("map: refused " + filled.number + " at " + filled.place);
                System.exit(1);
            }
            long opened = printWithin(image, map, MANY_CHAINS);
            if (opened > 0) {
                printWithin(image, map, opened - 1);
            }
        }
    }
}
