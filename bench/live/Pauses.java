// Pauses.java: the work of work.h in Java. SPDX: MIT OR Apache-2.0
//
// usage: java Pauses MEGABYTES acyclic|cyclic ROUNDS
//
// Prints when the work began and ended, in the nanoseconds by which the machine's log of its safepoints counts.
public class Pauses {
    static final int THREADS = 4, IN_TABLE = 500, DROPPED = 3, OBJECT_BYTES = 128;

    static final class Node {
        Node first, second;
        long one, two, three, four, five, six, seven, eight, nine, ten, eleven, twelve, thirteen;
    }

    static Node[][][] tables;
    static boolean isCyclic;

    static Node makePlace() {
        Node made = new Node();
        if (isCyclic) {
            made.first = new Node();
            made.first.first = made;
        }
        return made;
    }

    // So that what is dropped is made at all, a field holds it for a while.
    static final class Dropped {
        Node node;
    }

    static void run(int number, int rounds, Dropped dropped) {
        Node[][] own = tables[number];
        long state = number + 1;
        for (int round = 0; round < rounds; round++) {
            for (int at = 0; at < DROPPED; at++) {
                Node node = new Node();
                node.one = round;
                dropped.node = node;
            }
            state = state * 6364136223846793005L + 1442695040888963407L;
            int drawn = (int) ((state >>> 33) % (own.length * IN_TABLE));
            Node made = makePlace();
            made.one = round;
            own[drawn / IN_TABLE][drawn % IN_TABLE] = made;
        }
    }

    public static void main(String[] words) throws InterruptedException {
        isCyclic = words[1].startsWith("c");
        int count = (int) (Long.parseLong(words[0]) * 1000000 / OBJECT_BYTES / IN_TABLE / THREADS) / (isCyclic ? 2 : 1);
        int rounds = Integer.parseInt(words[2]);
        tables = new Node[THREADS][count][IN_TABLE];
        for (Node[][] own : tables)
            for (Node[] table : own)
                for (int at = 0; at < IN_TABLE; at++) table[at] = makePlace();
        Thread[] threads = new Thread[THREADS];
        long begun = System.nanoTime();
        for (int at = 0; at < THREADS; at++) {
            int number = at;
            threads[at] = new Thread(() -> run(number, rounds, new Dropped()));
            threads[at].start();
        }
        for (Thread thread : threads) thread.join();
        System.out.println(begun + " " + System.nanoTime());
    }
}
