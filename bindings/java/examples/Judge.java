import fantanolive.Code;
import fantanolive.Detail;
import fantanolive.Fantanolive;
import fantanolive.Reject;
import fantanolive.Row;
import java.util.Arrays;
import java.util.List;

/** A batch of two records, made, judged and shown: what a program that uses the jar looks like. */
public final class Judge {
    private static Detail detail(String name, String firstName, long dollars, String type) {
        return Detail.blank().withState("OH").withSsn("123456789").withLastName(name).withFirstName(firstName)
                .withTransactionType(type).withCaseType("N").withArrearageNumber(dollars);
    }

    public static void main(String[] arguments) {
        List<Detail> details = List.of(detail("SMITH", "JOHN", 25, "A"), detail("SMYTH", "", 100, "M"));
        byte[] batch = Fantanolive.makeBatch("OH", details);
        Fantanolive.Applied applied = Fantanolive.apply(new byte[0], batch, "", 2007);
        System.out.println("accepted " + applied.counts().accepted() + ", rejected " + applied.counts().rejected());
        for (int i = 0; i < applied.verdicts().length; i++) {
            for (Code code : Fantanolive.codesOf(applied.verdicts()[i])) {
                System.out.printf("record %d: %02d %s: %s%n", i + 1, code.number(), code.wrong(), code.mend());
            }
        }
        System.out.println(Row.read(applied.master()));
        Reject reject = Reject.read(Arrays.copyOf(applied.rejects(), Reject.WIDTH));
        System.out.println("codes " + reject.errorCodes() + ", stored name " + reject.storedName());
    }
}
