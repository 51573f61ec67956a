/* sab.h: the record folder that bench analysers share, in memory that the
 * caller lends.
 *
 * Up to eight analysers, units 0 to 7, keep one archive of folders and traces.
 * Every change is a record of 80 bytes. A unit's records and those it got from
 * others lie in its log, 40,960 bytes of the caller's. Units meet in twos and
 * pass blocks of 512 bytes. The tree of folders and traces is computed from the
 * records alone, so units that hold the same records show the same tree. A
 * record that does not fit the tree stands aside, with a reason, at every unit
 * alike. Records that every unit has heard of can be folded: they leave the log,
 * and what they come to lies in the unit's base, 43,032 bytes beside the log.
 *
 * The functions are proved: every call returns, stays within the lent buffers
 * and does what is said here. docs/FORMAT.md describes records, blocks, files
 * and the replay; this page describes the calls.
 *
 *
 * CAVEATS
 *
 * What the caller owes:
 *
 * - A pointer given with the length that is stated for it points to that many
 *   bytes, which nothing else reads or writes during the call.
 * - A buffer that a call writes overlaps no other of that call. The call does not
 *   notice if it does.
 * - Storage and links. The library keeps nothing between calls: no heap, no
 *   static data. A unit's state is its log and its base, as the last call left
 *   the lent bytes. STORAGE, below, says how to keep them.
 * - One unit number for one analyser. A number is not a name tag that can be
 *   passed on, and a laptop that reads a unit's card does not act under that
 *   unit's number: it takes a number of its own, or only reads.
 * - Starting only a new unit. sab_start empties a log and a base without asking.
 *   If a unit that has made records is started, it must get its own records back,
 *   by sab_read_file or sab_take, before it acts. Where others have folded them
 *   it cannot take them back (27): see FOLDING.
 *
 * If one of the last two is broken, a number is used twice: two different
 * records have one identity. No call notices that by itself. A vector counts
 * records and does not compare them, so units that ask each other only for what
 * their vectors lack pass the rest without a word, and mostly end with equal
 * vectors and different trees. In trials with three units (docs/RELIABILITY.md)
 * such meetings never noticed it after one act, in 0 to 2.4 % of the trials
 * after up to three acts and in 0 to 17.7 % after up to ten. A careful meeting,
 * below, compares the last record of each unit that both hold, and noticed it in
 * 99.5 to 100 % of the same trials: a take answers 10. Let every meeting be a
 * careful one.
 *
 * What the library does not do:
 *
 * - The sums of a block find every changed single byte and nearly all other
 *   damage, not all: two changed bytes can cancel. They are no protection
 *   against a person who wants to deceive.
 * - The archive number is compared by sab_take and sab_merge and nowhere else.
 *   The log does not hold it.
 * - A log holds 512 records that are not folded. A full one refuses new records
 *   (11), until sab_fold has freed places. A block is taken wholly or not at all,
 *   so takes may stop at 507 records or more: two units with 300 of their own
 *   stop at 510 each. Fold before logs fill: a full log cannot take the records
 *   that would tell it what others have heard, and may stay full for good.
 * - A record that fitted when it was made may stand aside after a meeting, and
 *   the other way round. Show the tree again after every accepted take.
 * - Libraries before 4.0.0 tell capitals from small letters in labels. They pass
 *   the same blocks and hold the same records, but may show another tree of
 *   them: change all units of an archive over.
 * - Libraries before 5.0.0 do not know the operation 7, move. They refuse a
 *   block or a file with a move, as malformed (7): change all units of an archive
 *   over before the first one moves an entry.
 * - Libraries before 6.0.0 have no base. They meet units that fold, as long as
 *   they lack nothing that is folded there; their own logs stay as they are.
 * - Libraries before 7.0.0 do not know files of the form SAB2, and refuse them
 *   (3). Blocks are the same for all.
 * - Dates are shown and order nothing.
 *
 * Calls may run at the same time on different buffers. Bytes need no alignment.
 * No call needs more than 64 KiB of stack; what each needs stands in
 * docs/PERFORMANCE.md.
 *
 * `scripts/build library` writes the archive, for x86-64 Linux. To link it:
 *
 *     cc -Iinclude yours.c target/staticlib/libsab.a
 *
 *
 * RESULTS
 *
 * Every function returns one 32-bit word:
 *
 *     SAB_NUMBER(r)   0 for success, else the number of the refusal, below
 *     SAB_PLACE(r)    the block at fault, counted from 0. The numbers marked P
 *                     below have a place; only sab_read_file, sab_listing,
 *                     sab_to_sab2, sab_to_sab1 and sab_merge give another than
 *                     0. For the other numbers it says nothing
 *     SAB_COUNT(r)    what a successful call counted, in 16 bits: the blocks
 *                     written (sab_write_file, sab_write_sab2, sab_to_sab2,
 *                     sab_to_sab1, sab_merge, sab_hand_out_row), the records read
 *                     (sab_read_file), in the log (sab_vector) or
 *                     folded (sab_fold, up to 512), the rows of a folder
 *                     (sab_list), the answer of sab_compare; of sab_take_row two
 *                     numbers; of sab_find the number of the entry, whose unit
 *                     is the place; of sab_check_order the condition that failed,
 *                     or 0; of a refused sab_merge, which file is at fault; of a
 *                     refused sab_try_plan the block at fault, up to 4,095, whose
 *                     SAB_PLACE is 0; else 0
 *
 * A refused call leaves every byte of every lent buffer as it was, but for work
 * memory. (sab_listing and sab_try_plan, whose output tells of the refusal, say
 * what they leave.)
 *
 * Each function checks in the order in which its numbers stand, and returns the
 * first that holds. A buffer that has not the stated length is refused with 1,
 * or with 2 if it is a block, a row or a file given for reading; its bytes are
 * neither read nor written, so with a wrong length, also 0, the pointer may be
 * anything. But of a file given to sab_read_file or sab_listing the first four
 * bytes, if it has so many, are read before its length is judged: they choose its
 * form. Only an index, and of a take the work memory, may have 0 bytes: see THE
 * INDEX.
 *
 * A unit's log is never lent without its base, and both are of one moment: a base
 * beside a log of another moment is mostly refused with 19, but not always. The
 * log lent to sab_merge, and log and base lent to sab_listing, are work space.
 *
 * Work memory, SAB_WORK_BYTES, is lent to the calls that need a tree to answer.
 * Its bytes mean nothing before the call and nothing after it. It may be the same
 * for all calls, one after the other.
 *
 *
 * RANK
 *
 * Records are replayed by rank, and stand in a log, in a file and in a block
 * that was handed out by rank. A record ranks by the sum of its eight seen
 * counts, and of two with the same sum the one with the lower unit ranks first.
 * So a record ranks after all that it has seen, a unit's new record ranks last
 * in its log, and no two records of a log rank the same. Dates, and the order in
 * which records arrived, have no part in it.
 *
 *
 * A MEETING
 *
 * Unit `me` wants what unit `you` has. Every buffer is the caller's.
 *
 *     uint8_t asked[SAB_VECTOR_BYTES], block[SAB_BLOCK_BYTES];
 *     uint32_t r;
 *     r = sab_vector(my_log, SAB_LOG_BYTES, my_base, SAB_BASE_BYTES,
 *                    asked, SAB_VECTOR_BYTES);
 *     lower(asked);                       each count above 0, by one: careful
 *     do {
 *         ...send asked to you...
 *         r = sab_hand_out(your_log, SAB_LOG_BYTES, your_base, SAB_BASE_BYTES,
 *                          archive, you, asked, SAB_VECTOR_BYTES,
 *                          block, SAB_BLOCK_BYTES);
 *         ...send block to me; it may arrive damaged or not at all...
 *         r = sab_take(my_log, SAB_LOG_BYTES, my_base, SAB_BASE_BYTES,
 *                      my_index, SAB_INDEX_BYTES, archive, me,
 *                      block, SAB_BLOCK_BYTES, work, SAB_WORK_BYTES);
 *         if (SAB_NUMBER(r) != SAB_OK) nothing was taken: ask again or end
 *         advance(asked, block);          by the records that came
 *         ...store my_log and my_base...
 *     } while (block[9] != 0);
 *
 * Byte 9 of a block is its count of records; 0 says that nothing is lacking.
 * Then the two change places. A meeting may break off anywhere: what was taken
 * stays, and the next meeting goes on from there, with the same end.
 *
 * lower() and advance() are the caller's. The lowered counts make the last record
 * of each unit that both hold come again, so that the take compares it; these
 * are at most eight records more. They come among the others by rank, in any of
 * the blocks. So the next question is not what is held now, which would leave
 * them out, nor the lowered counts again, which would bring the same block, but
 * the counts raised by what came: each record of the block whose number (bytes 2
 * and 3 of the record) is one above the count of its unit (byte 0) raises that
 * count by one. Record i of a block begins at its byte 28 + 80 i; a block that
 * was taken has no unit above 7. hosts/c/meeting.c is a whole meeting that
 * compiles, with both. A vector of zeros in place of the lowered one compares
 * all that both hold, in at most 86 blocks.
 *
 * Where records are folded, no count is lowered below my own base vector, bytes 8 to
 * 23 of my base; and you send yours before you are asked: a count below it is
 * raised to it, if I hold as many. What is folded at one of the two cannot be
 * compared, and a take passes it over. If I hold fewer than you have folded, the
 * hand-out is refused with 27.
 *
 * What a take's number means for the meeting:
 *
 *     2 3 4     damaged on its way: ask again, with the same vector
 *     5 7       you do not keep to the format: end for good
 *     6         you are of another archive: end for good
 *     10        a number was used twice: end for good, and meet no one, until
 *               a person has found out whose (docs/FIELD-CARD.md)
 *     8 9       of a block that I asked for so: as 10, or as 5. Of another, that
 *               came late or from elsewhere: ask again
 *     11        my log is full: I cannot take more until I have folded; you may
 *               still ask me
 *     26        a unit that is not in my list: fold with a list that has it
 *     27        of a take: the record had not seen what is folded here, and never
 *               comes in; its unit was not in my list when I folded, or has lost
 *               its log. Of a hand-out: I lack what you have folded: ask a unit
 *               that has not
 *     19 21 1   my log or base, or my program, is at fault
 *
 *
 * FOLDING
 *
 * A log has 512 places. sab_fold frees those of the records that every unit of
 * the archive is known to have heard of. The base keeps what they come to: their
 * tree, those of them that stand aside, and how many of each unit they were, the
 * base vector. The tree shown, the vector, the index and all later answers are as
 * they would be without, but for these:
 *
 * - The limit of 512 counts records that are not folded.
 * - A hand-out to a vector that lacks folded records is refused (27).
 * - A file of the form SAB1 cannot be written (29); one of the form SAB2 can.
 * - A folded record that comes again is passed over, whatever its bytes: that its
 *   number was used twice is not noticed here any more.
 * - A new record that has not seen all that is folded is refused (27).
 *
 * Units that differ in base or list compare by vector and by the tree shown, no
 * longer by the bytes of their logs.
 *
 * Who folds lists the units of the archive, in one byte: bit u for unit u. A list
 * has the own unit and every unit with a record, folded or not (26). After
 * sab_start, and after an SAB1 file is read, all eight are listed. What a listed
 * unit has heard is told by its last record in the log: what that has seen, with
 * the record itself counted; of a unit that has none there, nothing above the
 * base. So a listed unit that has never made a record, or none since the last
 * fold, holds all folding back. A list without such a unit is at your risk: if it
 * makes a record later, that is refused here, with 26, and once it is listed, with
 * 27, unless it has seen all that is folded.
 *
 * Two premises, for who wants meetings that never end with 26 or 27: every list
 * names each unit that ever makes a record, and no unit that folds is started
 * again. A unit that never makes a record, or that was started again and never
 * folds, may be left behind the base of another; it then takes from a unit that
 * has not folded so far.
 *
 * List and base lie in one lent buffer, 43,032 bytes:
 *
 *   0     the list; 1 zero
 *   2-3   how many entries, 4-5 how many asides, each at most 512; 6-7 zero
 *   8-23  the base vector
 *   24 + 72 i      entry i, a row as of the tree table, byte 1 zero
 *   36888 + 12 j   aside j, a row as of the tree table
 *   Rows not used are zero. After a start the first byte is 255 and all others
 *   are zero; who lends a fresh buffer without sab_start sets it so.
 *
 * A base that breaks this layout is refused with 19; so is one that names an
 * identity above its vector, holds an identity twice, or a label twice in a
 * folder, or has an entry that does not reach the root; and a log or base that
 * counts a unit which is not listed.
 *
 *
 * THE INDEX
 *
 * An index lists the entries of a unit's tree by folder, then by label, so that a
 * label is found in a big folder without a look at all entries. It is lent memory
 * like the log, 40,964 bytes:
 *
 *   0-1  how many rows, one for each entry of the tree; 2-3  zero
 *   4 + 40 i       row i
 *       0-3    the folder that the entry lies in; the root is all zero
 *       4-35   the label, then zeros
 *       36-39  the entry
 *   An identity is four bytes: unit, zero, number (2). Rows not used are zero.
 *
 * Rows stand by the folder's unit, then its number, then the bytes of the label
 * as numbers, A to Z as a to z, those of a shorter label before one that goes on.
 * So [ \ ] ^ _ and the backquote stand before all letters. No two rows have the
 * same folder and label, in any case. A row refers to no place in a log or in a
 * tree, and has the label as it was written.
 *
 * Who keeps one lends it to every call that changes the tree: sab_start, sab_act,
 * sab_take, sab_take_row. If it was right before, it is right after, whether the
 * call is refused or not: the same bytes as sab_index would make of log and base.
 * An act puts its one change into it; a take makes it afresh, a row once, and
 * needs work memory for that. Who keeps none lends no bytes, of length 0, and any
 * pointer, also NULL; to a take then no work memory either. To these calls every
 * other length, and to a take one of the two without the other, is refused with
 * 1, before all else. sab_fold leaves the tree as it was, and with it the index.
 *
 * After sab_read_file or sab_merge, or when a log was changed by a call that was
 * lent no index, sab_index makes it afresh. It is not part of a file and need not
 * be stored. sab_fold, sab_hand_out, sab_hand_out_row, sab_try, sab_write_file,
 * sab_write_sab2, sab_show, sab_check_order and sab_vector change no tree and need
 * none.
 *
 * sab_find and sab_list need the index alone. They end in any bytes, with the
 * answers that docs/FORMAT.md defines; of an index that is not the log's these
 * mean nothing.
 *
 *
 * FILES
 *
 * A file has one of two forms, by its first four bytes. docs/FORMAT.md describes
 * them.
 *
 *     SAB1   the records of a log in which nothing is folded; 1 to 86 blocks.
 *            It holds no list: read from it, all eight units are listed.
 *     SAB2   list and base, then the records of the log; 1 to 186 blocks. Every
 *            state has one such file, which reads back as that state, list and all.
 *
 * sab_read_file and sab_listing take both. sab_write_file and sab_write_sab2 write
 * the one and the other, sab_to_sab2 makes an SAB2 file of an SAB1 file, and
 * sab_to_sab1 goes back, unless records are folded (29). sab_merge takes SAB1
 * alone, and blocks that are handed out and taken have the letters SAB1.
 *
 *
 * STORAGE
 *
 * Store the file that sab_write_sab2 writes, or, as long as nothing is folded and
 * all eight units are listed, that of sab_write_file, rather than the bytes of log
 * and base: a file has sums, its archive and its unit, and sab_read_file tells if
 * it is whole. Log and base have none of these; a date or a mark that changed there
 * is not noticed. (Where they are stored all the same, store both in one piece,
 * never one apart from the other, and hand them to the next call as they were; a
 * torn one is mostly refused with 19, but not always.)
 *
 * - Never write over the only copy. Write a second file, read it back with
 *   sab_read_file, and only then give up the first. After a power cut, read both
 *   and go on with the one whose vector is ahead.
 * - Store after an accepted act, before anything is handed out. Otherwise a cut
 *   may take back a record that a peer already has, and the unit uses its number
 *   again. After a take it may be stored later: what is lost comes again.
 * - Do not lend the only copy of a log to a call, where memory outlives the
 *   power: a cut inside a call may leave the lent log half written.
 * - sab_read_file takes files of every archive and unit. Compare the archive
 *   and the unit in the head with your own before the log is used as your own:
 *   an act on another unit's log uses that unit's numbers twice.
 */

#ifndef SAB_H
#define SAB_H

#include <stddef.h>
#include <stdint.h>

#ifdef __cplusplus
extern "C" {
#endif

/* ---- The version of this header and of its calls ---- */

#define SAB_VERSION_MAJOR 7
#define SAB_VERSION_MINOR 2
#define SAB_VERSION_PATCH 0
#define SAB_VERSION "7.2.0"

/* ---- Lengths in bytes ---- */

#define SAB_RECORD_BYTES 80      /* a record, and a wish */
#define SAB_LOG_BYTES 40960      /* a log: 512 places of 80 */
#define SAB_BASE_BYTES 43032     /* list and base: 24 bytes, 512 rows of 72, 512
                                    of 12 */
#define SAB_BLOCK_BYTES 512      /* a block: up to six records */
#define SAB_FILE_BYTES 44032     /* lent for writing an SAB1 file: 86 blocks */
#define SAB_SAB2_BYTES 95232     /* lent for writing an SAB2 file: 186 blocks */
#define SAB_TREE_BYTES 86020     /* the tree table */
#define SAB_WORK_BYTES 86020     /* work memory */
#define SAB_INDEX_BYTES 40964    /* an index: 1,024 rows of 40 behind 4 bytes */
#define SAB_VECTOR_BYTES 16      /* a vector: eight 16-bit counts, unit 0 first */
#define SAB_LACKS_BYTES 8        /* how far two vectors are apart: two numbers */
#define SAB_HEAD_BYTES 24        /* what a file says of itself */
#define SAB_REPORT_BYTES 4116    /* the report of a row that is tried */
#define SAB_LISTING_BYTES 172544 /* lent for a listing; none is longer */
#define SAB_LENGTH_BYTES 4       /* the length of a listing, or of a plan's text */
#define SAB_ROUND_BYTES 327680   /* the eight logs of a plan, end to end */
#define SAB_PLAN_TEXT_BYTES 1024 /* lent for what a plan prints; it is never
                                    longer */
#define SAB_LABEL_BYTES 32       /* a label with the zeros behind it */
#define SAB_RANGE_BYTES 4        /* the rows of a folder in an index */

/* All numbers of more than one byte, in every buffer, are little-endian. */

/* ---- Results ---- */

#define SAB_NUMBER(r) ((uint32_t)(r) & 0xFFu)
#define SAB_PLACE(r) (((uint32_t)(r) >> 8) & 0xFFu)
#define SAB_COUNT(r) ((uint32_t)(r) >> 16)
#define SAB_TAKEN(r) (((uint32_t)(r) >> 16) & 0xFFu)   /* of sab_take_row: */
#define SAB_STOPPED(r) ((uint32_t)(r) >> 24)           /* the count's halves */

/* ---- Numbers of refusals; P: with the place of the block at fault ---- */

#define SAB_OK 0u
#define SAB_BAD_BUFFER 1u     /*   a lent buffer is not of the stated length */
#define SAB_BAD_LENGTH 2u     /* P a block is not 512 bytes, an SAB1 file is not 1
                                   to 86 blocks, an SAB2 file not 1 to 186, or a
                                   row not 0 to 86; the place is 0 */
#define SAB_BAD_LETTERS 3u    /* P a block does not begin with SAB1, or in an SAB2
                                   file with SAB2 */
#define SAB_BAD_SUM 4u        /* P a sum of a block differs: damaged */
#define SAB_BAD_HEADER 5u     /* P a header's unit is above 7 or its count above
                                   6, or an unused record place is not zero */
#define SAB_OTHER_ARCHIVE 6u  /* P the block or file is of another archive */
#define SAB_MALFORMED 7u      /* P a record or a wish is not well formed */
#define SAB_NOT_NEXT 8u       /* P a record's number is not its unit's next, or
                                   it has seen records that are not held: others
                                   have to be taken first */
#define SAB_NOT_CLOSED 9u     /* P what a record has seen is not closed: it has
                                   seen a record, but not all that one saw */
#define SAB_OTHER_BYTES 10u   /* P a record is held already, with other bytes: a
                                   number was used twice */
#define SAB_FULL_LOG 11u      /* P a 513th record that is not folded */
#define SAB_NO_OBJECT 12u     /*   the object is not in the tree */
#define SAB_NO_FOLDER 13u     /*   the folder is not in the tree */
#define SAB_WRONG_KIND 14u    /*   a trace used as a folder, or a store on a
                                   folder */
#define SAB_LABEL_HELD 15u    /*   an entry of that folder has the label, in
                                   capitals or small letters */
#define SAB_NOT_EMPTY 16u     /*   a folder to remove has entries */
#define SAB_UNSEEN_CHANGE 17u /*   only a reason for standing aside: the object
                                   was changed by a record that its maker had
                                   not seen. No call returns it */
#define SAB_NOT_ASIDE 18u     /*   a record to settle does not stand aside */
#define SAB_UNSOUND_LOG 19u   /*   the lent log, list or base is not sound: torn,
                                   or not of one state */
#define SAB_BAD_FILE 20u      /* P a file's blocks disagree, its ranks do not
                                   rise, or its vector is not its counts, folded
                                   records with them */
#define SAB_BAD_UNIT 21u      /*   the call's own unit is above 7 */
#define SAB_STROKE_IN_LABEL 24u /* P the label of a make, rename or move wish
                                     has a stroke; the place is 0 */
#define SAB_INTO_ITSELF 25u   /* P a move would put a folder into itself or below
                                   itself; the place is 0. Also a reason for
                                   standing aside */
#define SAB_UNLISTED 26u      /* P a list lacks the own unit or one that has a
                                   record, or a record or an act is of a unit
                                   that is not listed; the place is 0 but for a
                                   record of a file */
#define SAB_BELOW_BASE 27u    /* P a new record has not seen all that is folded,
                                   or a vector asked for lacks some of it; the
                                   place is 0 */
#define SAB_LAST_NUMBER 28u   /* P the own unit has used its last number, 65,535;
                                   the place is 0 */
#define SAB_FOLDED 29u        /* P records are folded: a file of the form SAB1
                                   cannot hold them, nor can an order be checked;
                                   the place is 0 */
#define SAB_BAD_EVENT 30u     /* P an event of a plan is not one */
#define SAB_BAD_BASE 31u      /* P the list or base of an SAB2 file breaks its
                                   layout, or is one that a call would refuse
                                   with 19; the place is 0 */

/* ---- Operations of a record, byte 1 ---- */

#define SAB_MAKE_FOLDER 1u /* folder, label */
#define SAB_MAKE_TRACE 2u  /* folder, label, mark */
#define SAB_STORE 3u       /* object, mark */
#define SAB_REMOVE 4u      /* object */
#define SAB_RENAME 5u      /* object, label */
#define SAB_SETTLE 6u      /* object: the record that stands aside */
#define SAB_MOVE 7u        /* object, folder, label */

/* ---- Calls ----
 *
 * The own unit is given as 32 bits. Every number above 7 is refused with 21, so
 * a wider number is not to be cut before the call.
 */

/* Compares two vectors, of any counts, and says how far each is behind.
 *
 * first, second   16 bytes each; only read
 * lacks           8 bytes; on 0 every byte is written: two 32-bit numbers,
 *                 little-endian. Bytes 0 to 3 say how many records the first
 *                 lacks, the sum, over the units, of what the second counts more;
 *                 bytes 4 to 7 how many the second lacks. Each is at most 524,280
 *
 * Returns 0, and SAB_COUNT is
 *   0 identical: neither lacks a record,
 *   1 the first dominates: it lacks none, and the second some,
 *   2 the second dominates,
 *   3 both are ahead: each lacks records that the other has.
 * Returns 1 if a vector is not of 16 bytes or lacks not of 8. No counts are
 * refused.
 *
 * To bring n records takes n / 6 blocks, rounded up, where the logs agree and all
 * fits: a block that is handed out to an asked vector has the lesser of 6 and
 * what that vector lacks against the held one.
 */
#define SAB_IDENTICAL 0u
#define SAB_FIRST_AHEAD 1u
#define SAB_SECOND_AHEAD 2u
#define SAB_BOTH_AHEAD 3u

uint32_t sab_compare(const uint8_t *first, size_t first_len,
                     const uint8_t *second, size_t second_len, uint8_t *lacks,
                     size_t lacks_len);

/* Gives the held vector: how many records of each unit a unit holds, folded ones
 * with them.
 *
 * log      40,960 bytes, only read
 * base     43,032 bytes, only read
 * vector   16 bytes; on 0 every byte is written: eight counts, unit 0 first
 *
 * Returns 0, and SAB_COUNT is how many records the log holds, without folded
 * ones, 0 to 512; 1 log, base or vector not of its length; 19 log or base not
 * sound.
 */
uint32_t sab_vector(const uint8_t *log, size_t log_len, const uint8_t *base,
                    size_t base_len, uint8_t *vector, size_t vector_len);

/* Starts a unit: makes its log all zeros and its base empty, with all eight units
 * listed, whatever they held. See the caveat.
 *
 * log       40,960 bytes; on 0 every byte is zero
 * base      43,032 bytes; on 0 the first is 255 and every other zero
 * index     40,964 bytes, or none; on 0 every byte is zero: the index of no entry
 * archive   any number; decides nothing here
 * unit      the own unit
 *
 * Returns 0; 1 index not of 0 or 40,964 bytes, log not of 40,960 or base not of
 * 43,032; 21 unit above 7.
 */
uint32_t sab_start(uint8_t *log, size_t log_len, uint8_t *base,
                   size_t base_len, uint8_t *index, size_t index_len,
                   uint32_t archive, uint32_t unit);

/* Makes a record of the own unit, if it fits the tree.
 *
 * log       40,960 bytes; on 0 the record stands behind those held, with the
 *           unit's next number and the held vector as what it has seen; the
 *           other bytes are as they were
 * base      43,032 bytes, only read
 * index     40,964 bytes, or none; on 0 a make puts its entry in, a remove takes
 *           it out, a rename or a move puts it elsewhere; a store and a settle
 *           change nothing
 * archive   any number; decides nothing here
 * unit      the own unit
 * wish      80 bytes, only read: a record whose unit is the own unit and whose
 *           number (bytes 2 and 3) and seen (bytes 4 to 19) are zero:
 *             0 unit; 1 operation; 2-19 zero;
 *             20 object's unit, 21 zero, 22-23 object's number;
 *             24 folder's unit, 25 zero, 26-27 folder's number; the root is all
 *                zero;
 *             28-29 year 1990 to 2199, 30 month, 31 day: a real date, in every
 *                operation;
 *             32-63 label: 1 to 32 bytes of hexadecimal 20 to 7E, no space first
 *                or last, then zeros; a new one without a stroke (2F): see 24;
 *             64-79 mark of the trace file, any bytes;
 *           fields that the operation does not use are zero
 * work      86,020 bytes, work memory
 *
 * Returns 0;
 *    1 index not of 0 or 40,964, log not of 40,960, base not of 43,032, wish not
 *      of 80 or work not of 86,020 bytes;
 *   21 unit above 7;
 *   19 log or base not sound;
 *   26 the own unit is not listed;
 *    7 wish of another unit, with number or seen, or malformed; an identity that
 *      this unit has not seen is malformed too;
 *   24 make, rename, move: well formed, but the label has a stroke (2F). Records
 *      that hold one, old ones of this unit too, are taken, read and shown;
 *   28 the unit has made 65,535 records;
 *   11 the log is full;
 *   12 store, remove, rename, move: the object is not in the tree;
 *   13 make, move: the folder is not in the tree;
 *   14 make, move: the folder is a trace; store: the object is a folder;
 *   25 move: the folder is the object or lies below it;
 *   15 make, rename, move: an entry of the folder has the label, A to Z as a to
 *      z; in a rename or a move an entry other than the object: to rename an
 *      entry to the label it has, or to move it to where it is, in the same bytes
 *      or another case, is no 15;
 *   16 remove: the folder has entries;
 *   18 settle: the object is no record that stands aside.
 *
 * A move puts a folder or a trace into another folder, or into the root, under
 * its label there; what lies in a folder goes with it. Every entry reaches the
 * root, going from folder to folder, in fewer steps than there are entries, the
 * root included.
 */
uint32_t sab_act(uint8_t *log, size_t log_len, const uint8_t *base,
                 size_t base_len, uint8_t *index, size_t index_len,
                 uint32_t archive, uint32_t unit, const uint8_t *wish,
                 size_t wish_len, uint8_t *work, size_t work_len);

/* Hands out one block: the first six or fewer records, in rank order, that the
 * asked vector lacks.
 *
 * log       40,960 bytes, only read
 * base      43,032 bytes, only read
 * archive   goes into the block
 * unit      the own unit; goes into the block
 * asked     16 bytes, only read: the vector of the unit that asks; any counts
 * block     512 bytes; on 0 every byte is written. Its count, byte 9, is 0 if
 *           nothing is lacking; its vector, bytes 12 to 27, is the held vector
 *
 * For k records lacking, k above 0, k divided by 6 and rounded up hand-outs and
 * takes pass all.
 *
 * Returns 0; 1 log, base, asked or block not of its length; 21 unit above 7; 19
 * log or base not sound; 27 asked has a count below that of the base vector.
 */
uint32_t sab_hand_out(const uint8_t *log, size_t log_len, const uint8_t *base,
                      size_t base_len, uint32_t archive, uint32_t unit,
                      const uint8_t *asked, size_t asked_len, uint8_t *block,
                      size_t block_len);

/* Takes a block wholly or not at all: its new records are laid into the log by
 * rank. Records that are held already must be equal and change nothing, so a
 * block may come twice. Folded records are passed over and not compared. The
 * block's place and vector are not judged.
 *
 * log       40,960 bytes; on 0 it holds the records held before and the block's
 * base      43,032 bytes, only read
 * index     40,964 bytes, or none; on 0 that of log and base, made afresh
 * archive   the archive that the block must have
 * unit      the own unit
 * block     512 bytes, only read
 * work      86,020 bytes, work memory; none if no index is lent
 *
 * Returns 0;
 *    1 index and work not of 40,964 and 86,020 bytes, nor both of 0; log not of
 *      40,960 or base not of 43,032;
 *   21 unit above 7;
 *   19 log or base not sound;
 *    2 block not of 512 bytes; 3 letters; 4 a sum; 5 header; 6 archive;
 *   then for its records one by one
 *    7 malformed;
 *   26 of a unit that is not listed;
 *   then, unless it is folded,
 *   10 held with other bytes (earlier records of the block count as held);
 *    8 not next, or has seen what is not held;
 *   27 has not seen all that is folded;
 *    9 seen not closed;
 *   11 a 513th record.
 * The place is 0.
 */
uint32_t sab_take(uint8_t *log, size_t log_len, const uint8_t *base,
                  size_t base_len, uint8_t *index, size_t index_len,
                  uint32_t archive, uint32_t unit, const uint8_t *block,
                  size_t block_len, uint8_t *work, size_t work_len);

/* Hands out a row: all blocks of what the asked vector lacks, each as
 * sab_hand_out would give it once those before are taken. One check of the log
 * for all of them.
 *
 * log       40,960 bytes, only read
 * base      43,032 bytes, only read
 * archive   goes into the blocks
 * unit      the own unit; goes into the blocks
 * asked     16 bytes, only read: the vector of the unit that asks; any counts
 * row       44,032 bytes; on 0 every byte is written: SAB_COUNT blocks of 512,
 *           which are the row, then zeros, which are not part of it
 *
 * Returns 0, and SAB_COUNT is the count of blocks, 0 to 86, 0 if nothing is
 * lacking; 1 log, base, asked or row not of its length; 21 unit above 7; 19 log or
 * base not sound; 27 asked has a count below that of the base vector.
 */
uint32_t sab_hand_out_row(const uint8_t *log, size_t log_len,
                          const uint8_t *base, size_t base_len,
                          uint32_t archive, uint32_t unit,
                          const uint8_t *asked, size_t asked_len, uint8_t *row,
                          size_t row_len);

/* Takes the blocks of a row in turn, each as sab_take does, up to the first that
 * is refused. One check of the log for all of them.
 *
 * log       40,960 bytes; on 0 it holds the records held before and those of the
 *           blocks taken
 * base      43,032 bytes, only read
 * index     40,964 bytes, or none; on 0 that of log and base, made afresh if a
 *           block was taken, also where a later one stops the row; else as it was
 * archive   the archive that the blocks must have
 * unit      the own unit
 * row       0 to 86 blocks of 512 bytes, only read
 * work      86,020 bytes, work memory; none if no index is lent
 *
 * Returns 0, and SAB_TAKEN is how many blocks were taken, SAB_STOPPED the number
 * that sab_take would answer for the block behind them, 3 to 11, 26 or 27, or 0 if
 * all were taken; 1 index and work not of 40,964 and 86,020 bytes, nor both of 0,
 * log not of 40,960 or base not of 43,032; 21 unit above 7; 2 row not of 0 to 86
 * whole blocks; 19 log or base not sound.
 */
uint32_t sab_take_row(uint8_t *log, size_t log_len, const uint8_t *base,
                      size_t base_len, uint8_t *index, size_t index_len,
                      uint32_t archive, uint32_t unit, const uint8_t *row,
                      size_t row_len, uint8_t *work, size_t work_len);

/* Tells what sab_take_row would do, on a copy of the log.
 *
 * log       40,960 bytes, only read
 * base      43,032 bytes, only read; it is that of the copy too
 * archive   the archive that the blocks must have
 * unit      the own unit
 * row       0 to 86 blocks of 512 bytes, only read
 * copy      40,960 bytes; on 0 the log as it would be
 * tree      86,020 bytes; on 0 the tree table of the copy
 * report    4,116 bytes; on 0 every byte is written:
 *             0 how many blocks would be taken;
 *             1 the number that stops the row, 3 to 11, 26 or 27, or 0;
 *             2-3 how many entries become disputed;
 *             4-19 the held vector of the copy;
 *             20-4115 the identities of these entries, 4 bytes each: unit, zero,
 *                number; by rank of their makers, then zeros.
 *           An entry becomes disputed if it is disputed in the tree of the copy
 *           and was no disputed entry of the log's tree.
 *
 * Returns 0; 1 log, base, copy, tree or report not of its length; 21 unit above 7;
 * 2 row not of 0 to 86 whole blocks; 19 log or base not sound.
 */
uint32_t sab_try(const uint8_t *log, size_t log_len, const uint8_t *base,
                 size_t base_len, uint32_t archive, uint32_t unit,
                 const uint8_t *row, size_t row_len, uint8_t *copy,
                 size_t copy_len, uint8_t *tree, size_t tree_len,
                 uint8_t *report, size_t report_len);

/* Lists the units of the archive, and folds: the longest run of records, from the
 * lowest rank on, that every listed unit has heard of goes from the log into the
 * base. See FOLDING.
 *
 * log       40,960 bytes; on 0 it holds the records that are not folded, by rank,
 *           then zeros
 * base      43,032 bytes; on 0 it has the list given, also where no record was
 *           folded, and the tree, the asides and the vector of all records folded
 *           so far
 * archive   any number; decides nothing here
 * unit      the own unit
 * list      the listed units, bit u for unit u
 * work      86,020 bytes, work memory
 *
 * A base holds 512 entries and 512 asides. Of the runs whose base has room the
 * longest is folded. Folding again with the same list at once folds nothing more.
 *
 * Returns 0, and SAB_COUNT is how many records were folded, 0 to 512; 1 log, base
 * or work not of its length; 21 unit above 7; 19 log or base not sound, judged
 * with the list stored; 26 the list lacks the own unit or a unit that has a record,
 * folded or not, or it is above 255.
 */
uint32_t sab_fold(uint8_t *log, size_t log_len, uint8_t *base, size_t base_len,
                  uint32_t archive, uint32_t unit, uint32_t list,
                  uint8_t *work, size_t work_len);

/* Writes the whole log as an SAB1 file, if no records are folded. The list is not
 * written.
 *
 * log       40,960 bytes, only read
 * base      43,032 bytes, only read
 * archive   goes into the file
 * unit      the own unit; goes into the file
 * file      44,032 bytes; on 0 every byte is written: SAB_COUNT blocks of 512,
 *           which are the file, then zeros, which are not part of it
 *
 * Returns 0, and SAB_COUNT is the count of blocks, 1 to 86; 1 log, base or file
 * not of its length; 21 unit above 7; 19 log or base not sound; 29 records are
 * folded.
 */
uint32_t sab_write_file(const uint8_t *log, size_t log_len,
                        const uint8_t *base, size_t base_len, uint32_t archive,
                        uint32_t unit, uint8_t *file, size_t file_len);

/* Writes list, base and log as an SAB2 file.
 *
 * log       40,960 bytes, only read
 * base      43,032 bytes, only read
 * archive   goes into the file
 * unit      the own unit, which need not be listed; goes into the file
 * file      95,232 bytes; on 0 every byte is written: SAB_COUNT blocks of 512,
 *           which are the file, then zeros, which are not part of it
 *
 * Returns 0, and SAB_COUNT is the count of blocks, 1 to 186; 1 log, base or file
 * not of its length; 21 unit above 7; 19 log or base not sound.
 */
uint32_t sab_write_sab2(const uint8_t *log, size_t log_len,
                        const uint8_t *base, size_t base_len, uint32_t archive,
                        uint32_t unit, uint8_t *file, size_t file_len);

/* Reads a file of either form, of any archive, into a lent log and base.
 *
 * log    40,960 bytes, whose old bytes are not judged; on 0 it holds the file's
 *        records
 * base   43,032 bytes, whose old bytes are not judged; on 0 it holds the list and
 *        base of an SAB2 file; of an SAB1 file it is empty, with all eight units
 *        listed
 * file   1 to 86 blocks, 512 to 44,032 bytes, only read; if its first four bytes
 *        are SAB2, 1 to 186 blocks, up to 95,232 bytes
 * head   24 bytes; on 0 what the file says of itself:
 *          0-3 archive; 4 unit; 5 zero; 6-7 count of records, folded ones not
 *          counted; 8-23 vector, which counts them
 *
 * Returns 0, and SAB_COUNT is the count of records, 0 to 512;
 *    1 log, base or head not of its length;
 *    2 file not of 1 to 86 whole blocks, of 186 for SAB2;
 *   then block by block 3 letters, 4 a sum, 5 header, 20 place, unit, archive or
 *   vector unlike the first block's, or a count that is not due there;
 *   then, of SAB2, 31 a list or base that breaks its layout or that would be
 *   refused with 19;
 *   then record by record 11 a 513th, 7 malformed, 26 of a unit that is not listed
 *   (SAB2), 20 rank not above the record before, 8 not next or has seen what is
 *   neither folded nor stands before, 9 not closed;
 *   last 20, at the last block, a vector that is not the counts of the records,
 *   folded ones with them.
 * The place says which block.
 */
uint32_t sab_read_file(uint8_t *log, size_t log_len, uint8_t *base,
                       size_t base_len, const uint8_t *file, size_t file_len,
                       uint8_t *head, size_t head_len);

/* Makes an SAB2 file of an SAB1 file: the same records, archive and unit, an empty
 * base, and all eight units listed.
 *
 * file   a file of the form SAB1, 512 to 44,032 bytes, only read
 * out    95,232 bytes; on 0 every byte is written: SAB_COUNT blocks of 512, which
 *        are the file, then zeros, which are not part of it
 *
 * Returns 0, and SAB_COUNT is the count of blocks, 1 to 87; 1 out not of its
 * length; then the numbers of sab_read_file for SAB1. A file of the form SAB2 is 3
 * at place 0, or 2 if it has more than 86 blocks.
 */
uint32_t sab_to_sab2(const uint8_t *file, size_t file_len, uint8_t *out,
                     size_t out_len);

/* Makes an SAB1 file of an SAB2 file: the way back. The same records, archive and
 * unit; the list is lost. What sab_to_sab2 made of a file becomes that file again,
 * byte for byte.
 *
 * file   a file of the form SAB2, 512 to 95,232 bytes, only read
 * out    44,032 bytes; on 0 every byte is written: SAB_COUNT blocks of 512, which
 *        are the file, then zeros, which are not part of it
 *
 * Returns 0, and SAB_COUNT is the count of blocks, 1 to 86; 1 out not of its
 * length; then the numbers of sab_read_file for SAB2; last 29, if the file is good
 * and records are folded, exactly if its base vector is not all zero. A file of
 * the form SAB1 is 3 at place 0, or 2 if it has more than 186 blocks.
 */
uint32_t sab_to_sab1(const uint8_t *file, size_t file_len, uint8_t *out,
                     size_t out_len);

/* Makes one file of all records of two: the last file of an analyser that is
 * retired and its successor's, say. Both files must be good, of the form SAB1, and
 * of one archive.
 *
 * first    a file, 512 to 44,032 bytes, only read; the result has its unit
 * second   a file, 512 to 44,032 bytes, only read
 * log      40,960 bytes, work space, whose old bytes are not judged; on 0 it
 *          holds the records of both, in rank order
 * file     44,032 bytes; on 0 every byte is written: SAB_COUNT blocks of 512,
 *          which are the file, then zeros, which are not part of it. The file
 *          has the first's archive and unit, all records of both, those that
 *          both have once, and the vector of these
 *
 * If two files merge, they do so either way round, with the same records; only
 * the unit is the first's. Why a merge is refused may depend on which comes
 * first. A good file merged with itself is that file; both may be the same bytes.
 *
 * Returns 0, and SAB_COUNT is the count of blocks, 1 to 86; else SAB_COUNT is
 * the file at fault, 1 or 2:
 *    1 log or file not of its length; SAB_COUNT is 0, for neither;
 *   then the numbers of sab_read_file for SAB1, but 1, for the first file (one of
 *   the form SAB2 is 3 at place 0, or 2 if it has more than 86 blocks);
 *   then the same for the second;
 *   then, for the second,
 *    6 another archive than the first's, place 0;
 *   10 a record that the first has with other bytes: a number was used twice;
 *   11 the two have more than 512 records.
 * The place says which block of that file: of 10 the block of the first such
 * record, of 11 that of the first record that is one too many behind the first
 * file's. All records are compared, 10, before they are counted, 11.
 */
uint32_t sab_merge(const uint8_t *first, size_t first_len,
                   const uint8_t *second, size_t second_len, uint8_t *log,
                   size_t log_len, uint8_t *file, size_t file_len);

/* Shows the tree: the replay of the log's records in rank order, behind what the
 * folded ones left in the base.
 *
 * log    40,960 bytes, only read
 * base   43,032 bytes, only read
 * tree   86,020 bytes; on 0 every byte is written:
 *
 *   0-1  how many entries; 2-3  how many asides; each at most 1,024, and
 *        together at most 512 more than the rows of the base
 *   4 + 72 i       entry i, by rank of the record that made it
 *       0      kind: 1 folder, 2 trace
 *       1      1 if disputed (an open aside marks it), else 0
 *       2-3    zero
 *       4-7    identity
 *       8-11   its folder; the root is all zero
 *       12-15  the last contents record: the make or the last store that fitted
 *       16-19  the last place record: the make or the last rename or move that
 *              fitted
 *       20-23  date of the last contents record: year (2), month, day
 *       24-55  label as it was written, then zeros
 *       56-71  mark of the last contents record; of a folder zeros
 *   73732 + 12 j   aside j, by rank
 *       0-3    identity
 *       4      reason: 12 to 18 or 25
 *       5      1 open, 2 settled
 *       6-7    zero
 *       8-11   the marked entry, even if removed since; all zero for none
 *   An identity is four bytes: unit, zero, number (2). Rows not used are zero.
 *
 * Returns 0; 1 log, base or tree not of its length; 19 log or base not sound.
 */
#define SAB_TREE_ENTRIES 4     /* where the rows of entries begin */
#define SAB_TREE_ASIDES 73732  /* where the rows of asides begin */
#define SAB_ENTRY_BYTES 72     /* a row of an entry */
#define SAB_ASIDE_BYTES 12     /* a row of an aside */
#define SAB_FOLDER 1u          /* kinds of entries */
#define SAB_TRACE 2u
#define SAB_OPEN 1u            /* states of asides */
#define SAB_SETTLED 2u

uint32_t sab_show(const uint8_t *log, size_t log_len, const uint8_t *base,
                  size_t base_len, uint8_t *tree, size_t tree_len);

/* Checks the order in which another program replays the records of a log. Three
 * conditions, each judged wholly before the next:
 *
 *   1   the list names each record of the log once, and nothing else
 *   2   no record stands before one that it has seen
 *   3   replayed in this order, the records leave the same entries as by rank
 *       (kind, identity, folder, label, date, mark, and whether disputed) and
 *       the same set of asides (record, reason, marked entry, open or settled).
 *       In what order entries and asides stand does not count
 *
 * The order by rank is always accepted.
 *
 * log      40,960 bytes, only read
 * base     43,032 bytes, only read; its vector must be all zero
 * list     the records in the order to be checked, only read: four bytes each,
 *          unit, zero, number (2). Any length. A part of four bytes at the end, a
 *          unit above 7 and a set second byte name no record
 * ours     86,020 bytes; if the first two conditions hold, the tree table of the
 *          log, as sab_show writes it; else as it was
 * theirs   86,020 bytes; if the first two conditions hold, the tree table of the
 *          order, its entries and asides as they came up; else as it was
 *
 * Returns 0, and SAB_COUNT is 0 where the order is accepted, else the condition
 * that failed first; 1 log, base, ours or theirs not of its length; 19 log or base
 * not sound; 29 records are folded.
 */
#define SAB_NAME_BYTES 4          /* a name in an order */
#define SAB_ORDER_ACCEPTED 0u     /* the count of sab_check_order */
#define SAB_ORDER_NAMES 1u        /* a record is missing or named twice, or a name
                                     is no record's */
#define SAB_ORDER_SEEN 2u         /* a record stands before one that it has seen */
#define SAB_ORDER_TREE 3u         /* the two tables show another tree */

uint32_t sab_check_order(const uint8_t *log, size_t log_len,
                         const uint8_t *base, size_t base_len,
                         const uint8_t *list, size_t list_len, uint8_t *ours,
                         size_t ours_len, uint8_t *theirs, size_t theirs_len);

/* Makes the index of a log and its base afresh.
 *
 * log     40,960 bytes, only read
 * base    43,032 bytes, only read
 * index   40,964 bytes, whose old bytes are not judged; on 0 every byte is
 *         written
 * work    86,020 bytes, work memory
 *
 * Returns 0; 1 log, base, index or work not of its length; 19 log or base not
 * sound.
 */
#define SAB_INDEX_ROWS 4        /* where the rows of an index begin */
#define SAB_INDEX_ROW_BYTES 40  /* a row of an index */

uint32_t sab_index(const uint8_t *log, size_t log_len, const uint8_t *base,
                   size_t base_len, uint8_t *index, size_t index_len,
                   uint8_t *work, size_t work_len);

/* Looks up a label in a folder.
 *
 * index    40,964 bytes of any kind, only read
 * unit     of the folder; the root is 0
 * number   of the folder; the root is 0. Of a trace, and of what is not in the
 *          tree, no entry is found; nor of a unit above 7 or a number above
 *          65,535, so that a wider number is not to be cut before the call
 * label    32 bytes, only read: a label, in capitals or small letters, then
 *          zeros; any others are no label, and no entry has them
 *
 * Returns 0, and the entry: SAB_PLACE is its unit, SAB_COUNT its number; both are
 * 0 if the folder has no entry of that label. 1 index or label not of its length.
 * Nothing else is refused.
 */
uint32_t sab_find(const uint8_t *index, size_t index_len, uint32_t unit,
                  uint32_t number, const uint8_t *label, size_t label_len);

/* Lists a folder: its entries are rows of the index one behind another, by label.
 *
 * index    40,964 bytes of any kind, only read
 * unit     of the folder, as of sab_find; of a trace, and of what is not in the
 *          tree, no row is listed
 * number   of the folder
 * range    4 bytes; on 0 every byte is written: 0-1 the first row, 0 to 1,024;
 *          2-3 how many rows. Together they are at most 1,024
 *
 * Row i begins at byte SAB_INDEX_ROWS + SAB_INDEX_ROW_BYTES * i of the index.
 *
 * Returns 0, and SAB_COUNT is how many rows; 1 index or range not of its length.
 * Nothing else is refused.
 */
uint32_t sab_list(const uint8_t *index, size_t index_len, uint32_t unit,
                  uint32_t number, uint8_t *range, size_t range_len);

/* Lists a file of either form as text, as docs/FORMAT.md gives it: archive, unit
 * and count of records that are not folded; the vector; a line for each entry; a
 * line for each aside. A refused file gives one line, `refused N at P`.
 *
 * file     the file's bytes, only read
 * log      40,960 bytes, work space; on 0 it holds the file's records
 * base     43,032 bytes, work space; on 0 it holds the file's list and base, as
 *          sab_read_file leaves them
 * tree     86,020 bytes, work space; on 0 it is the tree of that log and base
 * out      172,544 bytes; on every number but 1 the listing stands at its
 *          beginning, and the bytes behind it are as they were
 * length   4 bytes; on every number but 1 the length of the listing
 *
 * Returns 0; 1 log, base, tree, out or length not of its length, and all is as it
 * was; else the number and place with which sab_read_file refuses the file (2 to
 * 5, 7 to 9, 11, 20, 26, 31), the line of refusal is the listing, log and base are
 * as they were, and every byte of tree is zero.
 */
uint32_t sab_listing(const uint8_t *file, size_t file_len, uint8_t *log,
                     size_t log_len, uint8_t *base, size_t base_len,
                     uint8_t *tree, size_t tree_len, uint8_t *out,
                     size_t out_len, uint8_t *length, size_t length_len);

/* Tries out a round of visits: eight units start empty and do what a plan says,
 * and the text tells who ends with what. docs/PLANS.md has the form of a plan.
 *
 * plan     0 to 4,096 plan blocks of 512 bytes, only read
 * logs     327,680 bytes, the logs of the units 0 to 7 end to end, whose old bytes
 *          are not judged; on 0 as the units end
 * base     43,032 bytes, whose old bytes are not judged; on 0 empty, with all
 *          eight units listed: the base of each of the eight logs
 * work     86,020 bytes of work memory; on 0 zero
 * text     1,024 bytes; on every number but 1 what is printed stands at its
 *          beginning, and the bytes behind it are as they were: a line for each
 *          unit, a line for each pair, how many acts were skipped; of a refused
 *          plan one line, `refused N at P`
 * length   4 bytes; on every number but 1 the length of the text
 *
 * An act that is refused is skipped; one that would make a 513th record among all
 * units is refused by 11. A pass is a hand-out to the true vector of the other
 * unit and the take of that block; it is never refused. Afterwards sab_show,
 * sab_write_file and so on may be asked of any of the logs, with the base.
 *
 * Returns 0; 1 logs, base, work, text or length not of its length, and all is as
 * it was; else a number, SAB_COUNT is the block at fault, and all but text and
 * length is as it was. Each block is checked wholly before the next:
 *    2 it is a part of one, or the 4,097th; SAB_COUNT is 0;
 *    3 letters not PLN1, 4 a sum, 5 more than five events, or a set byte at 8, 10
 *   to 27 or behind the events;
 *    6 another archive than the first block's;
 *   30 an event has an unknown kind, a unit above 7, a pass to itself, a set byte
 *   that should be zero, or an act record of another unit.
 */
uint32_t sab_try_plan(const uint8_t *plan, size_t plan_len, uint8_t *logs,
                      size_t logs_len, uint8_t *base, size_t base_len,
                      uint8_t *work, size_t work_len, uint8_t *text,
                      size_t text_len, uint8_t *length, size_t length_len);

#ifdef __cplusplus
}
#endif

#endif
