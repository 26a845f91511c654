package siodlomil;

/**
 * Siodlomil from Java, over libsiodlomil_jni.so: siodlomil_jni.c linked with the archive for the machine. What each call is
 * lent, answers and writes is told function by function in include/siodlomil.h; the order of the buffers and the refusals are
 * the same. A refused call leaves every array as it was.
 *
 * <p>Ids are 16 bits without a sign: of an entry of {@code ids} take {@code & 0xffff}. A row of a map is 64 cells.
 *
 * <p>Every call throws NullPointerException where an array is null, and IllegalArgumentException where an array that is
 * written is lent twice.
 */
public final class Siodlomil {
    public static final int TABLE_BYTES = 11776;
    public static final int PATCH_BYTES = 23040;
    public static final int MAP_ROWS = 64;
    public static final int CHAIN_IDS = 64;
    public static final int ROOM_FIGURES = 64;

    private static final String[] REASONS = {"", "transaction", "jitter", "response", "priority", "pair", "timing"};

    static {
        System.loadLibrary("siodlomil_jni");
    }

    private Siodlomil() {}

    /** How a call ended: 0 and 0, or the number and place of its refusal. */
    public static class Answer {
        public final int number;
        public final int place;

        private Answer(int[] of) {
            number = of[0];
            place = of[1];
        }

        public boolean isAccepted() {
            return number == 0;
        }
    }

    public static class Bounds extends Answer {
        public final int tasks;
        /** The reserve that the shared stack needs, in bytes. */
        public final int chain;
        public final int path;
        public final int transactions;
        public final int levels;
        public final int length;

        private Bounds(int[] of) {
            super(of);
            tasks = of[2];
            chain = of[3];
            path = of[4];
            transactions = of[5];
            levels = of[6];
            length = of[7];
        }
    }

    /** What a bound call answers, and how many chains the rule opens; with refusal 13 path and transactions are known. */
    public static final class BoundsWithin extends Bounds {
        private static final int GAVE_UP = 13;

        /** Read it by {@code Integer.toUnsignedLong}: it has 32 bits without a sign. */
        public final long opened;

        private BoundsWithin(int[] of) {
            super(of);
            opened = Integer.toUnsignedLong(of[8]);
        }

        /** Whether the rule opens more chains than the limit. */
        public boolean hasGivenUp() {
            return number == GAVE_UP;
        }
    }

    public static final class Through extends Answer {
        public final int weight;
        public final int length;

        private Through(int[] of) {
            super(of);
            weight = of[2];
            length = of[3];
        }
    }

    public static final class Reason extends Answer {
        public final int reason;

        private Reason(int[] of) {
            super(of);
            reason = of[2];
        }

        /** The reason's word, empty where the call is refused. */
        public String word() {
            return REASONS[reason];
        }
    }

    public static final class Patched extends Answer {
        public final int touched;
        public final int length;

        private Patched(int[] of) {
            super(of);
            touched = of[2];
            length = of[3];
        }
    }

    public static final class Reversed extends Answer {
        public final int length;

        private Reversed(int[] of) {
            super(of);
            length = of[2];
        }
    }

    /** The part of a patch image that refusal 9 points to, of length 0 where nothing offends. */
    public static final class Offending {
        public final int at;
        public final int length;

        private Offending(int[] of) {
            at = of[0];
            length = of[1];
        }
    }

    public static Answer map(byte[] image, long[] map) {
        return new Answer(callMap(image, map));
    }

    public static Bounds bounds(byte[] image, long[] map, short[] ids) {
        return new Bounds(callBounds(image, map, ids));
    }

    /** The limit is 0 to 4,294,967,295; any other throws IllegalArgumentException. */
    public static BoundsWithin boundsWithin(byte[] image, long[] map, short[] ids, long limit) {
        return new BoundsWithin(callBoundsWithin(image, map, ids, bitsOf(limit, "limit")));
    }

    /** The reserve is 0 to 4,294,967,295; any other throws IllegalArgumentException. */
    public static Answer roomLeft(byte[] image, long[] map, long reserve, long[] room) {
        return new Answer(callRoomLeft(image, map, bitsOf(reserve, "reserve"), room));
    }

    public static Through chainThrough(byte[] image, long[] map, int id, short[] ids) {
        return new Through(callChainThrough(image, map, id, ids));
    }

    public static Reason reason(byte[] image, int low, int high) {
        return new Reason(callReason(image, low, high));
    }

    public static Patched patch(byte[] base, byte[] patch, long[] baseMap, byte[] room, long[] newMap) {
        return new Patched(callPatch(base, patch, baseMap, room, newMap));
    }

    public static Reversed reverse(byte[] patch, byte[] room) {
        return new Reversed(callReverse(patch, room));
    }

    public static Offending offending(byte[] base, byte[] patch) {
        return new Offending(callOffending(base, patch));
    }

    /** The 32 bits of a number without a sign. */
    private static int bitsOf(long number, String name) {
        if (number < 0 || 4_294_967_295L < number) {
            throw new IllegalArgumentException("siodlomil: " + number + " is no " + name + " from 0 to 4294967295");
        }
        return (int) number;
    }

    private static native int[] callMap(byte[] image, long[] map);

    private static native int[] callBounds(byte[] image, long[] map, short[] ids);

    private static native int[] callBoundsWithin(byte[] image, long[] map, short[] ids, int limit);

    private static native int[] callRoomLeft(byte[] image, long[] map, int reserve, long[] room);

    private static native int[] callChainThrough(byte[] image, long[] map, int id, short[] ids);

    private static native int[] callReason(byte[] image, int low, int high);

    private static native int[] callPatch(byte[] base, byte[] patch, long[] baseMap, byte[] room, long[] newMap);

    private static native int[] callReverse(byte[] patch, byte[] room);

    private static native int[] callOffending(byte[] base, byte[] patch);
}
