package geysertray;

/** A call was refused, and nothing was changed: the rule's number, what it means, and the rest of the answer where a session refused it. */
public final class Refused extends RuntimeException {
    private static final long serialVersionUID = 1;

    /** What each number means, in the words of docs/RULES.md; at 0 what a hidden number means. */
    static final String[] RULES = {
        "The session's limit of diagnostics is 0, so the number is hidden; the logical count still tells how many there were.",
        "The batch names another session.",
        "The session was closed; it takes nothing any more.",
        "This command has no place in this state, such as resuming what was never suspended.",
        "One of the session's own limits is passed: patches or stimulus bytes as declared, or target references as counted.",
        "The declared count of patches or of target references is not what the set has.",
        "So many operations (the logical count) aim at a node, a binding or a collection that the session was not created with.",
        "The batch's number is not the one after the last that was applied: a batch was lost, sent twice, or sent after a refused one.",
        "An operation met a list that it does not fit: the key to insert is there already, or the key or the neighbour is missing.",
        "The panel is full: 64 bindings, 64 availabilities, 128 entries over all collections.",
        "The bytes are no set: wrong heading or byte, too few bytes, a text cut off however long it was to be, a text that is no UTF-8, a score above 100 or in the first edition, bytes left over.",
        "The set reads, and its patches contradict each other or themselves.",
        "More than a set can carry: 32,768 bytes, 64 patches, 128 operations a patch, 240 bytes or 160 characters a text, all of whose bytes are there.",
        "A session was to be created with more than 128 anchors of one kind.",
        "The output is shorter than the bytes that the writer, the converter or bringing in a term list would write, than the list of keys that a set depends on, or than the print of a collection; or an answer table has fewer places than a page has keys.",
        "A line of a term list has another form than key, tab, text: it is empty, has no tab or two, its key has a sign, a leading zero or is past 2^64−1, or its text is no UTF-8.",
        "A page of more than 64 keys was asked for, whatever room there is for the answers.",
        "No batches, more than eight, or lengths that do not add up to the bytes that were lent.",
        "A set of the second edition with a match score was to be converted into the first, which has none.",
        "A sender registered under a number that the set-up does not have: n senders are numbered 0 to n − 1.",
        "The sender waits already; it keeps its place.",
        "Turns were to be set up for no senders, or for more than eight.",
    };

    private final long number;
    private final transient Panel.Answer answer;
    private final long place;

    Refused(long number, Panel.Answer answer) {
        this(number, answer, 0);
    }

    Refused(long number, Panel.Answer answer, long place) {
        super(Long.toUnsignedString(number) + ": " + sentence(number));
        this.number = number;
        this.answer = answer;
        this.place = place;
    }

    public long number() {
        return number;
    }

    public String sentence() {
        return sentence(number);
    }

    /** Null where no session was asked. */
    public Panel.Answer answer() {
        return answer;
    }

    /** Which batch of a group it was, from 0. */
    public long place() {
        return place;
    }

    private static String sentence(long number) {
        return 0 < number && number < RULES.length ? RULES[(int) number] : RULES[0];
    }
}
