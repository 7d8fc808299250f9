import bitronix.tm.TransactionManagerServices;
import bitronix.tm.utils.UidGenerator;
import java.util.Set;
import javax.transaction.Status;

/**
 * Notes so many decisions in a journal of Bitronix whose parts have a megabyte, and for all but the last one that it is
 * carried out. Then it is gone as if it was killed. Prints how many decisions aren't carried out, at its beginning and
 * at its end.
 *
 * <p>Words: the folder of the journal, and how many decisions.
 */
public final class Journal {
    public static void main(String[] words) throws Exception {
        var settings = TransactionManagerServices.getConfiguration();
        settings.setServerId("test");
        settings.setLogPart1Filename(words[0] + "/btm1.tlog");
        settings.setLogPart2Filename(words[0] + "/btm2.tlog");
        settings.setMaxLogSizeInMb(1);
        var journal = TransactionManagerServices.getJournal();
        journal.open();
        int before = journal.collectDanglingRecords().size();
        var stores = Set.of("one", "two");
        for (int left = Integer.parseInt(words[1]); left > 0; left--) {
            var transaction = UidGenerator.generateUid();
            journal.log(Status.STATUS_COMMITTING, transaction, stores);
            if (left > 1) {
                journal.log(Status.STATUS_COMMITTED, transaction, stores);
            }
        }
        System.out.println("OPEN " + before + " " + journal.collectDanglingRecords().size());
        Runtime.getRuntime().halt(0);
    }
}
