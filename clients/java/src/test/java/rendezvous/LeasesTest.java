package rendezvous;

import static org.junit.jupiter.api.Assertions.assertEquals;
import static org.junit.jupiter.api.Assertions.assertFalse;
import static org.junit.jupiter.api.Assertions.assertThrows;
import static org.junit.jupiter.api.Assertions.assertTrue;

import java.net.InetSocketAddress;
import java.net.StandardProtocolFamily;
import java.nio.channels.DatagramChannel;
import java.nio.charset.StandardCharsets;
import java.time.Instant;
import java.time.temporal.ChronoUnit;
import java.util.ArrayList;
import java.util.List;
import java.util.Map;
import java.util.Optional;
import java.util.OptionalLong;
import java.util.TreeSet;
import java.util.concurrent.TimeUnit;
import java.util.concurrent.locks.LockSupport;
import org.junit.jupiter.api.Test;
import org.junit.jupiter.api.condition.EnabledOnOs;
import org.junit.jupiter.api.condition.OS;
import org.junit.jupiter.params.ParameterizedTest;
import org.junit.jupiter.params.provider.CsvSource;
import org.junit.jupiter.params.provider.ValueSource;

/** Client numbers that are leased by sockets, within one process, and incarnations. */
final class LeasesTest {
    private final long first = OwnNumbers.first();

    private Leases of(long least, long greatest) {
        return new Leases(new ClientRange(first + least, first + greatest));
    }

    /** Whether nobody has a number. */
    static boolean isFree(long client) {
        Optional<Lease> lease = new Leases(new ClientRange(client, client)).next();
        lease.ifPresent(Lease::giveBack);
        return lease.isPresent();
    }

    /**
     * This program has no number's socket any more, and then nobody has the number. That is awaited: a program that is just being
     * started, as Maven starts some, has a copy of each socket until it begins.
     */
    static void assertFree(long client) {
        assertFalse(OwnSockets.isBound(placeOf(client)), "client " + client + " was not given back");
        long ends = System.nanoTime() + TimeUnit.MINUTES.toNanos(1);
        while (!isFree(client)) {
            assertTrue(System.nanoTime() < ends, "client " + client + " is not free");
            LockSupport.parkNanos(TimeUnit.MILLISECONDS.toNanos(1));
        }
    }

    private static InetSocketAddress placeOf(long client) {
        return Leases.place(Leases.user(), client);
    }

    private static Lease next(Leases leases) {
        return leases.next().orElseThrow(leases::none);
    }

    @Test
    void theLeastFreeNumberIsLeased() {
        Leases leases = of(7, 9);
        Lease seventh = next(leases);
        Lease eighth = next(leases);
        assertEquals(first + 7, seventh.client());
        assertEquals(first + 8, eighth.client());
        seventh.giveBack();
        assertFree(first + 7);
        Lease again = next(leases);
        assertEquals(first + 7, again.client());
        assertTrue(again.incarnation() > seventh.incarnation());
        Lease ninth = next(leases);
        assertEquals(first + 9, ninth.client());
        List.of(eighth, again, ninth).forEach(Lease::giveBack);
    }

    /** As the formats work them out. */
    @ParameterizedTest
    @CsvSource({"1000,1,127.64.3.232,61001", "0,1,127.64.0.0,61001", "0,4095,127.64.0.0,65095", "0,4096,127.119.121.177,61000",
        "1000,9007199254740991,127.72.138.55,65095", "4294967294,1,127.127.255.254,61001"})
    void aNumberStandsForAnAddressAndAPort(long user, long client, String host, int port) {
        assertEquals(new InetSocketAddress(host, port), Leases.place(user, client));
    }

    /** As another language's client on the same host has it, also where the user has no name, or is not the real one. */
    @Test
    void theUserIsTheEffectiveOne() {
        String before = "Name:\tUid: 7\nUmask:\t0022\n";
        String after = "Gid:\t3\t4\t5\t6\n";
        assertEquals(OptionalLong.of(54_321), Leases.effective(before + "Uid:\t1000\t54321\t2\t3\n" + after));
        assertEquals(OptionalLong.of(4_294_967_294L), Leases.effective("Uid:\t0\t4294967294\t0\t0\n"));
        assertEquals(OptionalLong.empty(), Leases.effective(before + after));
        assertEquals(OptionalLong.empty(), Leases.effective(""));
    }

    @Test
    @EnabledOnOs(OS.LINUX)
    void theUserIsTheOneThatTheSystemTells() throws Exception {
        Process id = new ProcessBuilder("id", "-u").start();
        String told = new String(id.getInputStream().readAllBytes(), StandardCharsets.US_ASCII).strip();
        assertEquals(Long.parseLong(told), Leases.user());
    }

    /** So that what has no number's socket any more is seen to have had it. */
    @Test
    @EnabledOnOs(OS.LINUX)
    void aLeaseIsASocketOfThisProgramUntilItIsGivenBack() {
        Lease lease = next(of(0, 0));
        assertTrue(OwnSockets.isBound(placeOf(first)));
        lease.giveBack();
        assertFalse(OwnSockets.isBound(placeOf(first)));
    }

    @Test
    void whoeverHasBoundThePlaceOfANumberHasTheNumber() throws Exception {
        try (DatagramChannel other = DatagramChannel.open(StandardProtocolFamily.INET)) {
            other.bind(placeOf(first));
            Lease lease = next(of(0, 1));
            assertEquals(first + 1, lease.client());
            lease.giveBack();
        }
        assertFree(first);
        Lease lease = next(of(0, 1));
        assertEquals(first, lease.client());
        lease.giveBack();
    }

    @Test
    void anotherPoolOfThisProcessGetsAnotherNumber() {
        Lease one = next(of(1, 2));
        Lease other = next(of(1, 2));
        assertEquals(first + 2, other.client());
        assertEquals(Optional.empty(), of(1, 2).next());
        one.giveBack();
        assertFree(first + 1);
        Lease again = next(of(1, 2));
        assertEquals(first + 1, again.client());
        List.of(other, again).forEach(Lease::giveBack);
    }

    @Test
    void whereNoneIsFreeTheExceptionNamesTheRange() {
        Lease one = next(of(5, 6));
        Lease other = next(of(5, 6));
        NoClientNumber none = assertThrows(NoClientNumber.class, () -> next(of(5, 6)));
        assertEquals("all client numbers " + (first + 5) + " to " + (first + 6) + " are leased", none.getMessage());
        List.of(one, other).forEach(Lease::giveBack);
    }

    @Test
    void aLeaseThatIsGivenBackTwiceEndsNoLaterOne() {
        Lease one = next(of(1, 1));
        one.giveBack();
        assertFree(first + 1);
        Lease second = next(of(1, 1));
        one.giveBack();
        assertEquals(Optional.empty(), of(1, 1).next());
        second.giveBack();
        assertFree(first + 1);
        Lease third = next(of(1, 1));
        assertEquals(first + 1, third.client());
        third.giveBack();
    }

    @Test
    void anInterruptedThreadLeasesAndStaysInterrupted() {
        Thread.currentThread().interrupt();
        Lease lease = next(of(1, 1));
        assertTrue(Thread.currentThread().isInterrupted());
        assertEquals(Optional.empty(), of(1, 1).next(), "the lease stands");
        lease.giveBack();
        assertTrue(Thread.interrupted());
        assertFree(first + 1);
        Lease again = next(of(1, 1));
        assertEquals(first + 1, again.client());
        again.giveBack();
    }

    /** A number may have been leased before in the same incarnation: that client's replies would be heard as this one's. */
    @Test
    void anIncarnationIsNotChosenForLeasedNumbers() {
        for (RvClients.Builder each : List.of(RvClients.builder("127.0.0.1", 1).incarnation(17),
                RvClients.builder("127.0.0.1", 1).clients(first, first).incarnation(17),
                RvClients.builder("127.0.0.1", 1).incarnation(17).clients(first, first))) {
            IllegalStateException refused = assertThrows(IllegalStateException.class, each::build);
            assertEquals("an incarnation is chosen along with numbers of your own, by unleased() and clients(first, last), or left "
                + "out", refused.getMessage());
        }
        RvClients.builder("127.0.0.1", 1).clients(first, first).incarnation(17).unleased().build().close();
    }

    @Test
    void anIncarnationThatTheUserChoseIsUsedAsItIsOnceForEachNumber() {
        Numbers given = new Numbers.Given(new ClientRange(first, first), 17);
        assertEquals(17, given.next().orElseThrow(given::none).incarnation());
        assertFalse(given.areUsedAgain());
        assertTrue(of(1, 1).areUsedAgain());
    }

    @Test
    void incarnationsAreTheClocksAndAboveAllBeforeThem() throws Exception {
        long before = ChronoUnit.MICROS.between(Instant.EPOCH, Instant.now());
        long one = Incarnations.next();
        assertTrue(before <= one, before + " " + one);
        assertEquals(one + 1, Incarnations.at(one));
        assertEquals(one + 2, Incarnations.at(1));
        List<Thread> threads = new ArrayList<>();
        TreeSet<Long> all = new TreeSet<>();
        for (int each = 0; each < 8; each++) {
            threads.add(new Thread(() -> {
                for (int turn = 0; turn < 1_000; turn++) {
                    long made = Incarnations.at(1);
                    synchronized (all) {
                        assertTrue(all.add(made));
                    }
                }
            }));
        }
        threads.forEach(Thread::start);
        for (Thread each : threads) {
            each.join();
        }
        assertEquals(8_000, all.size());
    }

    @Test
    void noIncarnationIsAboveTheGreatest() {
        long before = Incarnations.next();
        IllegalStateException none = assertThrows(IllegalStateException.class, () -> Incarnations.at(1L << 53));
        assertEquals("no incarnation is left above 9007199254740991", none.getMessage());
        assertTrue(Incarnations.next() < Key.GREATEST && Incarnations.next() > before, "nothing of it is kept");
    }

    @Test
    void theRangeIsTheEnvironments() {
        assertEquals(new ClientRange(1, 1_024), ClientRange.of(Map.of()));
        assertEquals(new ClientRange(513, 1_024), ClientRange.of(Map.of("RV_CLIENTS", "513-1024")));
        assertEquals(new ClientRange(1, 9_007_199_254_740_991L), ClientRange.of(Map.of("RV_CLIENTS", "1-9007199254740991")));
    }

    @ParameterizedTest
    @ValueSource(strings = {"", "1", "1-", "-5", "a-b", "0-5", "5-4", "1 - 5", "1-5 ", "1-9007199254740992", "1-99999999999999999999"})
    void aRangeThatIsNoneIsRefusedByTheNameOfItsVariable(String range) {
        IllegalArgumentException fault =
            assertThrows(IllegalArgumentException.class, () -> ClientRange.of(Map.of("RV_CLIENTS", range)));
        assertTrue(fault.getMessage().startsWith("RV_CLIENTS"), fault.getMessage());
    }
}
