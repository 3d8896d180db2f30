// The worked examples of the stage. A comment is what its narrator says at the event below it.

const LOAD = "load t1 FFFF9876543210E00000";
const PAY = "begin t1 4012345678909 1234 500";

const PAYMENT = `# A payment: each transaction has a key of its own.

# The terminal t1 is loaded with its initial key. The keys of all its 1,048,575 numbers follow from this one. The
# host can derive each of them too, because it has the base derivation key.
${LOAD}

# Someone pays 500 with a card and its PIN. The terminal takes its next number and that number's key, and enciphers
# the PIN. The key leaves the registers before the request goes out. Until the reply comes, memory alone has it.
${PAY}

# Request 1 reaches the host. The number in it tells the host which key to derive. It checks the MAC, hands the PIN
# to the issuer under another key, and marks the number as used. The issuer approves: code 00.
up 1

# The reply reaches the terminal. Its MAC is made with this payment's key, so only the host can have made it.
# The payment is complete, and its key is gone. Look below, at “Whoever opens a terminal now”.
down 1 t1

# The next payment has the next number, and so another key. Its amount is above the card's limit of 10,000.
begin t1 4012345678909 1234 10001

# The host accepts the request, and declines the payment: accepted is not approved. Only code 00 is an approval.
up 2

# Nothing is paid this time. Two numbers are used, and whoever opens the terminal now finds the key of neither. That
# is what DUKPT protects: with what is in the terminal today, no PIN of a past payment can be deciphered.
down 2 t1
`;

const LOST_REPLY = `# A lost reply: without reversals, a customer may pay twice.

# The terminal is loaded. The host keeps a log of used numbers here, and no record of payments.
${LOAD}

# Someone pays 500. Request 1 goes into the network.
${PAY}

# The host approves. Its reply gets lost on the way.
up 1
# answer 1 is lost

# The terminal hears nothing, and its request is delivered once more. The host has kept the request with its reply,
# and gives the same reply again. It does not ask the issuer a second time, so the customer pays once.
up 1

# The repeated reply completes the payment.
down 2 t1

# The first reply turns up after all, too late. Nothing waits for it, so it changes nothing.
down 1 t1

# Another payment of 500.
${PAY}

# The host approves, and this reply is lost too.
up 2
# answer 3 is lost

# Now the host is restarted. It finds the used numbers in its log, but has forgotten its replies.
restart host

# The same request comes again. The host only knows that its number is used: it refuses, with reason 5.
up 2

# The refusal reaches the terminal. It says nothing of the money. At the host 1,000 are approved, and the terminal
# knows of 500: look at the purchases below.
down 4 t1

# Nobody asks what became of the payment, and it is begun anew. To the host this is another payment.
${PAY}

# So the issuer approves again.
up 3

# The customer has paid the second purchase twice: 1,000 for 500. With the first one 1,500 are paid at the host. This
# is what a reversal is for: see the example “A reversal”.
down 5 t1
`;

const POWER_FAILURE = `# A power failure: a number is used at most once, whenever the power fails.

# The terminal is loaded. A dot beside an end is a device step of its store: a write has two of them here.
${LOAD}

# The power at the terminal is going to fail behind the next device step.
arm t1 1

# The first step keeps the registers without the key of number 1, and then the power fails. No request goes out.
${PAY}

# Until its restart the terminal does nothing.
${PAY}

# It comes up with what its store kept: number 1 is gone, although nobody ever saw it. A number may be lost, but is
# never used twice.
restart t1

# So this payment has number 2.
${PAY}

# Now the power at the host is going to fail, in the middle of a write to its log.
arm host 1

# The first step keeps number 2 in the log as used, and then the power fails. The issuer was not asked: nothing was
# decided, and no answer goes out.
up 1

# Until its restart the host answers nothing.
up 1

# It comes up, and finds number 2 in its log.
restart host

# The same request again: its number is used, so the host refuses it. It would rather lose a payment than accept a
# number twice.
up 1

# The terminal is told that the number is used.
down 1 t1

# It begins again, with number 3.
${PAY}

# This time nothing fails.
up 2

# Number 1 was lost unsent, number 2 was refused, number 3 is paid. Both totals agree, and no number was used twice.
down 2 t1
`;

const SECOND_LIFE = `# Loaded again: a terminal is loaded with another initial key, and has a second life.

# The terminal t1 begins its first life.
${LOAD}

# It sends a payment.
${PAY}

# Before the reply comes, the terminal is loaded anew at the key injection facility. It gives up the payment, and
# all keys of its first life are gone.
load t1 FFFF9876543210C00000

# The request of its first life is still under way. The host accepts and approves it.
up 1

# But the terminal does not wait for that reply any more.
down 1 t1

# The second life begins with its own first number. No number of the first life comes again.
${PAY}

# The host derives the key of the second life.
up 2

# This payment is complete.
down 2 t1

# Could the terminal go back to its first initial key? Then it would use its numbers a second time. It refuses.
${LOAD}

# It does not take its present one again either.
load t1 FFFF9876543210C00000

# And no other terminal gets it.
load t2 FFFF9876543210E00000

# After a restart the terminal goes on where it was.
restart t1

# It still knows its past. So no number is used twice, in any of its lives.
${LOAD}
`;

const REVERSAL = `# A reversal: how a terminal gets out of not knowing whether the customer has paid.

# The host keeps a journal here, in which each payment stands with its amount. The terminal has a second cell, its
# book, which keeps what became of its last purchase.
${LOAD}

# Someone pays 500. Before the request goes out, the book has the purchase as open.
${PAY}

# The host approves, writes the payment into its journal, and replies. The reply gets lost. At the host a
# payment of 500 stands, and the terminal knows of nothing: has the customer paid or not?
up 1
# answer 1 is lost

# The cashier tries it again. The terminal refuses: while a purchase is open it begins no other. So the customer
# cannot pay twice.
${PAY}

# Instead it sends a reversal: whatever became of the open purchase, it is not to stand. The reversal is a
# transaction of its own, with the next number and another key.
reverse t1

# The host finds the payment in its journal and undoes it. Had the payment never come, the host would make sure that
# it is refused from now on.
up 2

# The terminal knows now that nothing is paid. It is at rest, and both totals are equal again.
down 2 t1

# The lost reply turns up after all. It is too late: no purchase is open.
down 1 t1

# The request itself comes once more. Its number is reversed, so the host refuses it: the payment stays undone.
up 1
# answer 3 is lost

# Now the purchase begins anew. It has a number and a key of its own.
${PAY}

# The host approves it.
up 3

# The customer has paid 500, once. Whenever a terminal is at rest, both books agree: that is what a reversal is for.
down 4 t1
`;

/** The examples: what stands on the button, the script, and whether it is played over a journal. */
export const EXAMPLES = [
  { id: "payment", name: "A payment", script: PAYMENT, isJournal: false },
  { id: "lost-reply", name: "A lost reply", script: LOST_REPLY, isJournal: false },
  { id: "power-failure", name: "A power failure", script: POWER_FAILURE, isJournal: false },
  { id: "second-life", name: "Loaded again", script: SECOND_LIFE, isJournal: false },
  { id: "reversal", name: "A reversal", script: REVERSAL, isJournal: true },
];
