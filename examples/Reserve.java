import java.io.IOException;
import java.nio.file.Files;
import java.nio.file.Path;
import java.util.Arrays;
import siodlomil.Siodlomil;

/**
 * The stack reserve of a task table before a patch, after it, and with it taken off again; and what refusals look like:
 *
 * <pre>java Reserve TABLE PATCH OTHER</pre>
 *
 * does from Java what examples/reserve.c does from C, and prints the same.
 */
public final class Reserve {
    /** A task of figure 2 outside the chain that reaches its reserve. */
    private static final int ASKED = 21;

    private static final long LARGEST_RESERVE = 4_294_967_295L;

    /** A table image with its map. */
    private static final class Table {
        final byte[] image;
        final long[] map;

        Table(byte[] image, long[] map) {
            this.image = image;
            this.map = map;
        }

        boolean isSameAs(Table other) {
            return Arrays.equals(image, other.image) && Arrays.equals(map, other.map);
        }
    }

    private Reserve() {}

    /** Prints how a call ended, and returns whether it was accepted. */
    private static boolean isAccepted(String call, Siodlomil.Answer answer) {
        if (answer.isAccepted()) {
            System.out.println(call + ": accepted");
        } else {
            System.out.println(call + ": refused " + answer.number + " at " + answer.place);
        }
        return answer.isAccepted();
    }

    /**
     * Prints how many bytes each of the first tasks may grow until a chain through it weighs this much; less than 0 where one
     * weighs more already.
     */
    private static void printRoom(Table of, long reserve, String whom, int tasks) {
        long[] room = new long[Siodlomil.ROOM_FIGURES];
        if (Siodlomil.roomLeft(of.image, of.map, reserve, room).isAccepted()) {
            StringBuilder figures = new StringBuilder();
            for (int k = 0; k < tasks; k++) {
                figures.append(' ').append(room[k]);
            }
            System.out.println("  room left of " + reserve + whom + ":" + figures);
        }
    }

    /** The first ids of a chain, each behind a space. */
    private static String listed(short[] ids, int length) {
        StringBuilder chain = new StringBuilder();
        for (int k = 0; k < length; k++) {
            chain.append(' ').append(ids[k] & 0xffff);
        }
        return chain.toString();
    }

    /** Prints what the heaviest chain through a task weighs, and its tasks. */
    private static void printThrough(Table of, int id) {
        short[] ids = new short[Siodlomil.CHAIN_IDS];
        Siodlomil.Through answer = Siodlomil.chainThrough(of.image, of.map, id, ids);
        if (answer.isAccepted()) {
            String chain = listed(ids, answer.length);
            System.out.println("  the heaviest chain through " + id + " weighs " + answer.weight + ":" + chain);
        }
    }

    /**
     * Prints the reserve of a table, the chain of tasks that reaches it with the reasons, the other bounds, what room is left
     * of that reserve, of one byte less and of the largest there is, and a chain through another task.
     */
    private static void printReserve(Table of) {
        short[] ids = new short[Siodlomil.CHAIN_IDS];
        Siodlomil.Bounds answer = Siodlomil.bounds(of.image, of.map, ids);
        if (!isAccepted("bounds", answer)) {
            return;
        }
        System.out.println("  reserve " + answer.chain + ", chain" + listed(ids, answer.length));
        System.out.println("  tasks " + answer.tasks + ", path " + answer.path + ", transactions " + answer.transactions
            + ", levels " + answer.levels);
        for (int k = 0; k + 1 < answer.length; k++) {
            int low = ids[k] & 0xffff;
            int high = ids[k + 1] & 0xffff;
            System.out.println("  " + low + " " + high + " " + Siodlomil.reason(of.image, low, high).word());
        }
        printRoom(of, answer.chain, "", answer.tasks);
        if (answer.chain > 0) {
            printRoom(of, answer.chain - 1, "", answer.tasks);
            printRoom(of, LARGEST_RESERVE, " to the first task", 1);
        }
        printThrough(of, ASKED);
    }

    /** Applies a patch to a base and returns the outcome with its map, or null. */
    private static Table apply(String call, Table base, byte[] patch) {
        byte[] room = new byte[Siodlomil.TABLE_BYTES];
        long[] map = new long[Siodlomil.MAP_ROWS];
        Siodlomil.Patched answer = Siodlomil.patch(base.image, patch, base.map, room, map);
        if (!isAccepted(call, answer)) {
            return null;
        }
        System.out.println("  touched " + answer.touched + ", " + answer.length + " bytes");
        return new Table(Arrays.copyOf(room, answer.length), map);
    }

    /** Takes a patch off again, prints the reserve then, and returns whether all is as it was before the patch. */
    private static boolean takeOff(Table before, Table after, byte[] patch) {
        byte[] back = new byte[Siodlomil.PATCH_BYTES];
        Siodlomil.Reversed answer = Siodlomil.reverse(patch, back);
        if (!isAccepted("reverse", answer)) {
            return false;
        }
        System.out.println("  " + answer.length + " bytes");
        Table restored = apply("the reverse on the outcome", after, Arrays.copyOf(back, answer.length));
        if (restored == null) {
            return false;
        }
        printReserve(restored);
        return before.isSameAs(restored);
    }

    /** Prints the record of a patch that is to be taken out though the base lacks it, if there is one. */
    private static void printOffending(Table base, byte[] patch) {
        Siodlomil.Offending part = Siodlomil.offending(base.image, patch);
        System.out.println("  offending " + part.length + " bytes at " + part.at);
        for (int k = 0; k < part.length; k++) {
            System.out.printf("%s%02x%s", k % 16 == 0 ? "    " : " ", patch[part.at + k], k % 16 == 15 ? "\n" : "");
        }
    }

    public static void main(String[] words) throws IOException {
        if (words.length != 3) {
            System.err.println("usage: Reserve TABLE PATCH OTHER");
            System.exit(1);
        }
        Table before = new Table(Files.readAllBytes(Path.of(words[0])), new long[Siodlomil.MAP_ROWS]);
        byte[] first = Files.readAllBytes(Path.of(words[1]));
        byte[] other = Files.readAllBytes(Path.of(words[2]));
        if (!isAccepted("map", Siodlomil.map(before.image, before.map))) {
            System.exit(1);
        }
        printReserve(before);
        Table after = apply("patch", before, first);
        if (after == null) {
            System.exit(1);
        }
        printReserve(after);
        apply("the same patch on its outcome", after, first);
        if (!takeOff(before, after, first)) {
            System.exit(1);
        }
        System.out.println("  table and map are as they were before the patch, byte for byte");
        if (apply("the other patch", before, other) == null) {
            printOffending(before, other);
        }
        isAccepted("the reason of a task that is not listed", Siodlomil.reason(before.image, 0, 0));
        short[] ids = new short[Siodlomil.CHAIN_IDS];
        isAccepted("the chain through a task that is not listed", Siodlomil.chainThrough(before.image, before.map, 0, ids));
    }
}
