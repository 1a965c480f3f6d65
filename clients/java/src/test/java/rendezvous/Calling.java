package rendezvous;

import static org.junit.jupiter.api.Assertions.assertThrows;
import static org.junit.jupiter.api.Assertions.assertTrue;

import java.util.concurrent.Callable;
import java.util.concurrent.ExecutionException;
import java.util.concurrent.FutureTask;
import java.util.stream.Stream;

/** A call that runs in a thread of its own. */
record Calling<T>(Thread thread, FutureTask<T> told) {
    static <T> Calling<T> of(Callable<T> call) {
        FutureTask<T> told = new FutureTask<>(call);
        Thread thread = new Thread(told);
        thread.setDaemon(true);
        thread.start();
        return new Calling<>(thread, told);
    }

    /** Waits until the thread is within a method of this name, which it must be before it ends. */
    void isWithin(String method) throws InterruptedException {
        while (Stream.of(thread.getStackTrace()).noneMatch(frame -> frame.getMethodName().equals(method))) {
            assertTrue(thread.isAlive(), "it has ended, and was not seen within " + method);
            Thread.sleep(1);
        }
    }

    /** What it gives; its thread has ended. */
    T end() throws Exception {
        thread.join();
        return told.get();
    }

    /** What it threw; its thread has ended. */
    Throwable thrown() throws InterruptedException {
        thread.join();
        return assertThrows(ExecutionException.class, told::get).getCause();
    }
}
