// Calls.java: what calls_structs.c does, in Java. SPDX: MIT OR Apache-2.0
//
// usage: java Calls        a line for each: its name, and its nanoseconds, of the best of some rounds
//
// Fields are read and written by opaque accesses, which the compiler may neither leave out nor join, as the empty assembly of bench.h does
// in C. Registers are an array of references.
import java.lang.invoke.MethodHandles;
import java.lang.invoke.VarHandle;
import java.util.function.IntConsumer;

public class Calls {
    static final int CALLS = 1_000_000, ROUNDS = 60, LIVE = 100_000, IN_TABLE = 1000;

    static final class Node {
        Node first, second;
        long one, two;
    }

    static final VarHandle FIRST, SECOND, ONE, TWO, REGISTER;
    static final Node[] registers = new Node[16];
    static final Node[][] tables = new Node[LIVE / IN_TABLE][IN_TABLE];
    static long state = 1;

    static {
        try {
            MethodHandles.Lookup lookup = MethodHandles.lookup();
            FIRST = lookup.findVarHandle(Node.class, "first", Node.class);
            SECOND = lookup.findVarHandle(Node.class, "second", Node.class);
            ONE = lookup.findVarHandle(Node.class, "one", long.class);
            TWO = lookup.findVarHandle(Node.class, "two", long.class);
            REGISTER = MethodHandles.arrayElementVarHandle(Node[].class);
        } catch (ReflectiveOperationException failed) {
            throw new ExceptionInInitializerError(failed);
        }
    }

    static Node register(int number) {
        return (Node) REGISTER.getOpaque(registers, number);
    }

    static int draw(int end) {
        state = state * 6364136223846793005L + 1442695040888963407L;
        return (int) ((state >>> 33) % end);
    }

    // The loops stand in methods of their own, so that each is compiled for itself.
    static void load(int calls) {
        for (int i = 0; i < calls; i++) {
            Node base = register(1);
            REGISTER.setOpaque(registers, 4, (Node) ((i & 1) == 0 ? FIRST.getOpaque(base) : SECOND.getOpaque(base)));
        }
    }

    static void store(int calls) {
        for (int i = 0; i < calls; i++) {
            Node base = register(1), value = register(2);
            if ((i & 1) == 0) FIRST.setOpaque(base, value);
            else SECOND.setOpaque(base, value);
        }
    }

    static void get(int calls) {
        for (int i = 0; i < calls; i++) {
            Node base = register(1);
            long word = (i & 1) == 0 ? (long) ONE.getOpaque(base) : (long) TWO.getOpaque(base);
            if (word == -1) throw new IllegalStateException();
        }
    }

    static void put(int calls) {
        for (int i = 0; i < calls; i++) {
            Node base = register(1);
            if ((i & 1) == 0) ONE.setOpaque(base, (long) i);
            else TWO.setOpaque(base, (long) i);
        }
    }

    static void move(int calls) {
        for (int i = 0; i < calls; i++) REGISTER.setOpaque(registers, 5, register(2));
    }

    static void make(int calls) {
        for (int i = 0; i < calls; i++) REGISTER.setOpaque(registers, 6, new Node());
    }

    static void replace(int calls) {
        for (int i = 0; i < calls; i++) {
            int drawn = draw(LIVE);
            REGISTER.setOpaque(tables[drawn / IN_TABLE], drawn % IN_TABLE, new Node());
        }
    }

    static void measure(String name, IntConsumer calls) {
        double best = 1e18;
        for (int round = 0; round < ROUNDS; round++) {
            long begun = System.nanoTime();
            calls.accept(CALLS);
            best = Math.min(best, (System.nanoTime() - begun) / (double) CALLS);
        }
        System.out.printf("%s\t%.2f%n", name, best);
    }

    public static void main(String[] words) {
        for (int at = 1; at < 4; at++) registers[at] = new Node();
        for (Node[] table : tables)
            for (int at = 0; at < IN_TABLE; at++) table[at] = new Node();
        measure("lxr_load", Calls::load);
        measure("lxr_store", Calls::store);
        measure("lxr_get", Calls::get);
        measure("lxr_put", Calls::put);
        measure("lxr_move", Calls::move);
        measure("lxr_new of 4 words, dropped at once", Calls::make);
        measure("one of 100000 objects replaced by a new one", Calls::replace);
    }
}
