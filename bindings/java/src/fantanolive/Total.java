package fantanolive;

import java.util.List;
import java.util.OptionalLong;

/**
 * The TOTAL record of a collection file (Chart 0-5, 240 bytes). Every field is a text without the spaces at its end. What was read is
 * written as the same bytes, whatever they are; nothing is judged here. Written by bin/generate-layouts from package/layouts.json; not to be edited.
 *
 * @param state Submitting State Code, 1-2
 * @param filler1 Filler, 3-5
 * @param mark Total Control, 6-14: TOTAL and four spaces
 * @param filler2 Filler, 15-34
 * @param adjustments Total Adjustments, 35-49: lines with an adjustment above zero, fifteen digits
 * @param collections Total Collections, 50-64: lines with a collection above zero, fifteen digits
 * @param certifiedArrearage Total Certified Arrearage Amount, 65-75
 * @param collection Total Collection Amount, 76-86
 * @param adjustment Total Adjustment Amount, 87-97
 * @param net Total Net Amount, 98-108
 * @param filler3 Filler, 109-240
 */
public record Total(
        String state,
        String filler1,
        String mark,
        String filler2,
        String adjustments,
        String collections,
        String certifiedArrearage,
        String collection,
        String adjustment,
        String net,
        String filler3) implements Layout {
    /** How many bytes a record has. */
    public static final int WIDTH = 240;

    /** The fields, in order and without gaps. */
    public static final List<Field> FIELDS = List.of(
            new Field("state", "Submitting State Code", 1, 2, Field.Kind.TEXT),
            new Field("filler_1", "Filler", 3, 5, Field.Kind.FILLER),
            new Field("mark", "Total Control", 6, 14, Field.Kind.TEXT),
            new Field("filler_2", "Filler", 15, 34, Field.Kind.FILLER),
            new Field("adjustments", "Total Adjustments", 35, 49, Field.Kind.NUMBER),
            new Field("collections", "Total Collections", 50, 64, Field.Kind.NUMBER),
            new Field("certified_arrearage", "Total Certified Arrearage Amount", 65, 75, Field.Kind.AMOUNT),
            new Field("collection", "Total Collection Amount", 76, 86, Field.Kind.AMOUNT),
            new Field("adjustment", "Total Adjustment Amount", 87, 97, Field.Kind.AMOUNT),
            new Field("net", "Total Net Amount", 98, 108, Field.Kind.AMOUNT),
            new Field("filler_3", "Filler", 109, 240, Field.Kind.FILLER));

    /** A record of spaces. */
    public static Total blank() {
        return new Total("", "", "", "", "", "", "", "", "", "", "");
    }

    /**
     * Reads a record in EBCDIC.
     *
     * @throws IllegalArgumentException where it hasn't 240 bytes
     */
    public static Total read(byte[] record) {
        Columns.checked(record, WIDTH);
        return new Total(
            Columns.text(record, 1, 2),
            Columns.text(record, 3, 5),
            Columns.text(record, 6, 14),
            Columns.text(record, 15, 34),
            Columns.text(record, 35, 49),
            Columns.text(record, 50, 64),
            Columns.text(record, 65, 75),
            Columns.text(record, 76, 86),
            Columns.text(record, 87, 97),
            Columns.text(record, 98, 108),
            Columns.text(record, 109, 240));
    }

    @Override
    public List<Field> fields() {
        return FIELDS;
    }

    @Override
    public List<Object> values() {
        return List.of(state, filler1, mark, filler2, adjustments, collections, certifiedArrearage, collection, adjustment, net, filler3);
    }

    /** The fields that aren't blank, without SSNs. */
    @Override
    public String toString() {
        return Columns.shown("Total", this);
    }

    /** The same with another Submitting State Code. */
    public Total withState(String state) {
        return new Total(state, filler1, mark, filler2, adjustments, collections, certifiedArrearage, collection, adjustment, net, filler3);
    }

    /** The same with another Filler. */
    public Total withFiller1(String filler1) {
        return new Total(state, filler1, mark, filler2, adjustments, collections, certifiedArrearage, collection, adjustment, net, filler3);
    }

    /** The same with another Total Control. */
    public Total withMark(String mark) {
        return new Total(state, filler1, mark, filler2, adjustments, collections, certifiedArrearage, collection, adjustment, net, filler3);
    }

    /** The same with another Filler. */
    public Total withFiller2(String filler2) {
        return new Total(state, filler1, mark, filler2, adjustments, collections, certifiedArrearage, collection, adjustment, net, filler3);
    }

    /** The same with another Total Adjustments. */
    public Total withAdjustments(String adjustments) {
        return new Total(state, filler1, mark, filler2, adjustments, collections, certifiedArrearage, collection, adjustment, net, filler3);
    }

    /** Total Adjustments as a number; empty where it isn't 15 digits. */
    public OptionalLong adjustmentsNumber() {
        return Columns.number(adjustments, 15);
    }

    /** The same with another Total Adjustments, as a number. */
    public Total withAdjustmentsNumber(long number) {
        return withAdjustments(Columns.digits("adjustments", number, 15));
    }

    /** The same with another Total Collections. */
    public Total withCollections(String collections) {
        return new Total(state, filler1, mark, filler2, adjustments, collections, certifiedArrearage, collection, adjustment, net, filler3);
    }

    /** Total Collections as a number; empty where it isn't 15 digits. */
    public OptionalLong collectionsNumber() {
        return Columns.number(collections, 15);
    }

    /** The same with another Total Collections, as a number. */
    public Total withCollectionsNumber(long number) {
        return withCollections(Columns.digits("collections", number, 15));
    }

    /** The same with another Total Certified Arrearage Amount. */
    public Total withCertifiedArrearage(String certifiedArrearage) {
        return new Total(state, filler1, mark, filler2, adjustments, collections, certifiedArrearage, collection, adjustment, net, filler3);
    }

    /** Total Certified Arrearage Amount in cents; empty where it isn't 11 digits. */
    public OptionalLong certifiedArrearageCents() {
        return Columns.cents(certifiedArrearage, 11);
    }

    /** The same with another Total Certified Arrearage Amount, in cents. */
    public Total withCertifiedArrearageCents(long number) {
        return withCertifiedArrearage(Columns.digits("certified_arrearage", number, 11));
    }

    /** The same with another Total Collection Amount. */
    public Total withCollection(String collection) {
        return new Total(state, filler1, mark, filler2, adjustments, collections, certifiedArrearage, collection, adjustment, net, filler3);
    }

    /** Total Collection Amount in cents; empty where it isn't 11 digits. */
    public OptionalLong collectionCents() {
        return Columns.cents(collection, 11);
    }

    /** The same with another Total Collection Amount, in cents. */
    public Total withCollectionCents(long number) {
        return withCollection(Columns.digits("collection", number, 11));
    }

    /** The same with another Total Adjustment Amount. */
    public Total withAdjustment(String adjustment) {
        return new Total(state, filler1, mark, filler2, adjustments, collections, certifiedArrearage, collection, adjustment, net, filler3);
    }

    /** Total Adjustment Amount in cents; empty where it isn't 11 digits. */
    public OptionalLong adjustmentCents() {
        return Columns.cents(adjustment, 11);
    }

    /** The same with another Total Adjustment Amount, in cents. */
    public Total withAdjustmentCents(long number) {
        return withAdjustment(Columns.digits("adjustment", number, 11));
    }

    /** The same with another Total Net Amount. */
    public Total withNet(String net) {
        return new Total(state, filler1, mark, filler2, adjustments, collections, certifiedArrearage, collection, adjustment, net, filler3);
    }

    /** Total Net Amount in cents; empty where it isn't 11 digits. */
    public OptionalLong netCents() {
        return Columns.cents(net, 11);
    }

    /** The same with another Total Net Amount, in cents. */
    public Total withNetCents(long number) {
        return withNet(Columns.digits("net", number, 11));
    }

    /** The same with another Filler. */
    public Total withFiller3(String filler3) {
        return new Total(state, filler1, mark, filler2, adjustments, collections, certifiedArrearage, collection, adjustment, net, filler3);
    }
}
