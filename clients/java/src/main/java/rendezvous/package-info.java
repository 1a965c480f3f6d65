/**
 * A client of the rendezvous server {@code rv}: queues whose producers wait until their item is received, and exchangers,
 * between processes.
 *
 * <p>{@link rendezvous.RvClients} has a program's sessions at a server, and leases their client numbers.
 * {@link rendezvous.RvTransferQueue} and {@link rendezvous.RvExchanger} ask by them, from any number of threads;
 * {@link rendezvous.RvConsumer} gives item after item to an action. A program that waits for an item, and then gives one:
 *
 * <pre>{@code
 * try (RvClients clients = RvClients.builder("127.0.0.1", 7411).build()) {
 *     RvTransferQueue queue = new RvTransferQueue(clients, 3);
 *     String job = queue.take();
 *     Receipt receipt = queue.transferReceipt("result of " + job);
 *     System.out.println("received by client " + receipt.by().orElseThrow().client());
 * }
 * }</pre>
 *
 * <p>Each request has a {@link rendezvous.Key} and one reply, whatever becomes of its connection: a call repeats its request
 * until it has that, and an {@link rendezvous.Outcome} is what a reply tells. A call that ends without one says by an
 * {@link rendezvous.RvException} what is known of its request: one that was sent and not answered in time is
 * {@linkplain rendezvous.RvException.Unsettled unsettled}, and its {@link rendezvous.RvSession} tells what became of it, as
 * soon as there is a connection, by {@link rendezvous.RvSession#again} or {@link rendezvous.RvSession#giveUp}.
 */
package rendezvous;
