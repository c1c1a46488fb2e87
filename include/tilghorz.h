/* The C functions of the library tilghorz. The command "python3 tools/static_library.py" makes the library,
 * target/staticlib/libtilghorz.a. The file example.c in this folder calls two of the functions.
 *
 * Slices. A function takes each slice as a pointer and a length in bytes. If the length is 0, the pointer may have any value
 * except null. The bytes that a call writes must not overlap the bytes that it reads. Nothing else may write to any of these
 * bytes during the call.
 *
 * State. A function keeps no pointer and no state after the call. Several threads may call at the same time, if each call has
 * its own output, its own feed and its own store; they may share the text and the policy.
 *
 * Answers. Each function returns one word. The top 8 bits of the word are a number, the low 56 bits are a value:
 *
 *   number     meaning                                value
 *   0          done                                   bytes or rows written, the code point, or the cut; tilghorz_repair
 *                                                     and tilghorz_around have two values
 *   1          text over 16,777,216 bytes             0
 *   2          not a policy                           0
 *   3          text not well-formed                   length of the longest well-formed beginning
 *   4          no finding starts at the offset        0
 *   5          decisions too few or many              number of decisions needed
 *   6          decision byte above 1                  index of the first such byte
 *   7          table too short                        number of rows needed
 *   8          output too short                       number of bytes needed
 *   9          the feed has ended                     0
 *   10         the thread ends inside a character     0
 *   11         not a policy sheet                     offset at which it stops being one
 *   12         no variation entry in a sheet          offset of the first code point that is none
 *   13         bad client or number                   0
 *   14         the bytes do not fit the store         number of bytes that would fit; for a new store, its capacity
 *   15         the policy is of another version       0
 *   16         not a list of an old policy's entries  0
 *   255        nothing to do                          0
 *
 * If there are two values, the first has the low 28 bits, and the second has the 28 bits above them. Both are below 2^28.
 *
 * The numbers 1 to 16 are refusals. After a refusal every buffer is unchanged, a feed and a store too. After "nothing to do" every output
 * is unchanged. After "done" the result is at the front of the buffer, and the bytes after the result are unchanged.
 *
 * Policies. A policy is 200 bytes: 25 words of 8 bytes, lowest byte first. The first word is the Unicode version of the tables, major
 * times 256 plus minor, as tilghorz_version gives it. The other words are four sets of 6 words, in this order: prefer_bare ordinary,
 * prefer_bare keycap, bare_as_text ordinary, bare_as_text keycap. In each set, bit i mod 64 of word i / 64 says whether the set has
 * entry i of the variation table; bit 0 is the lowest bit.
 * There are 354 entries, those of Unicode 15.0; the other 30 bits of a set are unused and must be 0. The function
 * tilghorz_variation_entry gives the code point of an entry. If 20E3 follows a base, the keycap sets apply to the base; otherwise
 * the ordinary sets apply. A function whose comment lists 2 tests a policy in this order: its length (2), its version (15), its unused
 * bits (2).
 *
 * Sheets. A sheet is a policy as text. It has four lines, one for each set in the order above. Each line ends with the byte 0A. A line is
 * empty, or it has code points and ranges such as 2764 or 30-39, with a comma between two of them and no blanks. A code point has two or
 * four to six hexadecimal digits in upper case. A range stands for the variation entries in it; its two ends must be entries. The pieces
 * of a line may come in any order and may overlap. tilghorz_write_sheet writes one sheet for each policy.
 *
 * Feeds. A feed formats a thread as it arrives. It is 528 bytes, which tilghorz_feed_begin writes. The caller hands these bytes on
 * from call to call and changes none of them. Each call of tilghorz_feed_piece takes the next bytes of the thread, cut at any place, and
 * writes what can be written; tilghorz_feed_end writes the rest. The joined outputs and the totals are then those of the whole thread
 * formatted at once by tilghorz_format (whose "nothing to do" means the text itself). tilghorz_feed_policy changes the policy between two
 * pieces; each base is then judged by the policy in force when its last byte was fed. The limit of 16,777,216 bytes is on the thread. A
 * refused call changes nothing, so another piece may follow. If the bytes of a feed are not such bytes, a piece, an end and a change
 * return 9, or they take the bytes as some feed; the totals are then 0, or those of that feed.
 *
 * Stores. Up to 16 clients share a store of a capacity of C bytes. Each client has a reserve; the reserves sum to at most C, and the common
 * part is C less all reserves. tilghorz_store_file formats a text and charges the formatted length to a client, under a number from 0 to
 * 255 that the client does not use; tilghorz_store_release gives the bytes back. What a client uses beyond its reserve comes out of the
 * common part, and a release gives that back first. The store keeps lengths and no texts. It is 33032 bytes, which tilghorz_store_begin
 * writes. The caller hands these bytes on from call to call and changes none of them. If the bytes of a store are not such bytes, the
 * calls return 13, or they take the bytes as some store.
 *
 * The comment at each function lists the numbers that it can return besides 0, in the order of its tests, and says what the
 * value means for 0.
 */
#ifndef TILGHORZ_H
#define TILGHORZ_H

#include <stddef.h>
#include <stdint.h>

#ifdef __cplusplus
extern "C" {
#endif

#define TILGHORZ_TEXT_LIMIT 16777216 /* the longest text, in bytes */
#define TILGHORZ_POLICY_BYTES 200    /* the length of a policy */
#define TILGHORZ_ENTRIES 354         /* variation entries, those of Unicode 15.0 */
#define TILGHORZ_FINDING_BYTES 112   /* the length of a row of tilghorz_list */
#define TILGHORZ_NEAREST_BYTES 120   /* the length of the row of tilghorz_nearest */
#define TILGHORZ_ITEM_BYTES 64       /* the length of a row of tilghorz_scan */
#define TILGHORZ_TIP_BYTES 24        /* the length of a row of tilghorz_tips */
#define TILGHORZ_FEED_BYTES 528      /* the length of a feed */
#define TILGHORZ_TOTALS_BYTES 64     /* the length of the totals of tilghorz_feed_totals */
#define TILGHORZ_SHEET_ROOM 9916     /* no sheet of tilghorz_write_sheet is longer */
#define TILGHORZ_STORE_BYTES 33032   /* the length of a store */

/* The number and the value of an answer. The argument may also have a signed type. */
#define TILGHORZ_NUMBER(word) ((unsigned)((uint64_t)(word) >> 56))
#define TILGHORZ_VALUE(word) ((uint64_t)(word) & 0xFFFFFFFFFFFFFF)

/* The two values of an answer that has two. */
#define TILGHORZ_FIRST(word) ((uint64_t)(word) & 0xFFFFFFF)
#define TILGHORZ_SECOND(word) ((uint64_t)(word) >> 28 & 0xFFFFFFF)

/* The numbers. */
#define TILGHORZ_DONE 0
#define TILGHORZ_TEXT_TOO_LONG 1
#define TILGHORZ_NOT_A_POLICY 2
#define TILGHORZ_NOT_WELL_FORMED 3
#define TILGHORZ_NO_FINDING 4
#define TILGHORZ_WRONG_NUMBER_OF_DECISIONS 5
#define TILGHORZ_BAD_DECISION 6
#define TILGHORZ_TABLE_TOO_SHORT 7
#define TILGHORZ_OUTPUT_TOO_SHORT 8
#define TILGHORZ_FEED_ENDED 9
#define TILGHORZ_UNFINISHED_CHARACTER 10
#define TILGHORZ_NOT_A_SHEET 11
#define TILGHORZ_NOT_AN_ENTRY 12
#define TILGHORZ_BAD_CLIENT_OR_NUMBER 13
#define TILGHORZ_DOES_NOT_FIT 14
#define TILGHORZ_OTHER_VERSION 15
#define TILGHORZ_NOT_AN_ENTRY_LIST 16
#define TILGHORZ_NOTHING_TO_DO 255

/* Formats a text under a policy. Numbers: 1, 2, 3, 8, and 255 if the text needs no change. Value: the number of bytes written, at
 * most 4 times the length of the text, and under the default policy at most 5/2 times. */
uint64_t tilghorz_format(const uint8_t *text, size_t text_len, const uint8_t *policy, size_t policy_len, uint8_t *out, size_t out_len);

/* Lists the findings of a text in text order. Numbers: 1, 2, 3, 7. Value: the number of rows written. A row is fourteen numbers of 8
 * bytes, lowest byte first: start, end, the counts unsanctioned, modifier-defective, additional-defective, tag-conflicting, tag-forced,
 * tag-redundant, policy-redundant, decisions, then start and end in characters, and start and end in UTF-16 units. A character up to
 * FFFF is one unit, one above is two. The table has room for as many rows as fit into it whole. */
uint64_t tilghorz_list(const uint8_t *text, size_t text_len, const uint8_t *policy, size_t policy_len, uint8_t *table, size_t table_len);

/* Mends the finding that starts at the offset: writes the whole text, with this finding replaced. Numbers: 1, 2, 3, 4, 5, 6, 8.
 * Value: the number of bytes written. Each decision is one byte: 0 for text, 1 for emoji. The finding's eighth count is the number
 * of decisions. If it is 0, pass the length 0 and any pointer that is not null, for example the pointer to the text. */
uint64_t tilghorz_mend(const uint8_t *text, size_t text_len, const uint8_t *policy, size_t policy_len, uint64_t offset,
                       const uint8_t *decisions, size_t decisions_len, uint8_t *out, size_t out_len);

/* Lists the items of a text in text order. Numbers: 1, 3, 7. Value: the number of rows written. A row is eight numbers of 8 bytes,
 * lowest byte first: start, end, kind (0 passthrough, 1 unsanctioned selectors, 2 links only, 3 emoji-headed), whether the tags are
 * complete (0 or 1), then start and end in characters, and start and end in UTF-16 units. Tags are complete if the tags of every tag
 * modification of the item, selectors skipped, are one or more of E0020 to E007E and then one E007F. An item without a tag modification
 * has 1; tags in a passthrough belong to none. */
uint64_t tilghorz_scan(const uint8_t *text, size_t text_len, uint8_t *table, size_t table_len);

/* Writes the text with FFFD in place of each bad place. Numbers: 1, 8. The text need not be well-formed; the result always is. Two
 * values: the number of bytes written, which is at most 3 times the length of the text, and the number of replacements, which is 0
 * exactly if the text is well-formed. A well-formed text is written too. A bad place is a maximal subpart of the Unicode Standard,
 * chapter 3: the longest run of bytes there that begins a character, or one byte. The limit of refusal 1 is on the text. The result can
 * be longer than this limit, and the other functions then refuse it. */
uint64_t tilghorz_repair(const uint8_t *text, size_t text_len, uint8_t *out, size_t out_len);

/* Lists the findings that lie wholly inside a stretch of bytes and, in a table of their own, those that only share a byte with it. The
 * stretch is the bytes from `from` up to, not including, `to`; both may be any numbers. A stretch that reaches past the text is cut at the
 * end of the text; one that ends before its start is empty; an empty stretch has neither kind of findings. Numbers: 1, 2, 3, 7 with the
 * number of rows needed by the first table that is too short, `inside` before `sharing`; neither table is written then. Two values: the
 * number of rows in `inside`, and the number of rows in `sharing`, which is at most 2. A row is as in tilghorz_list. */
uint64_t tilghorz_around(const uint8_t *text, size_t text_len, const uint8_t *policy, size_t policy_len, uint64_t from, uint64_t to,
                         uint8_t *inside, size_t inside_len, uint8_t *sharing, size_t sharing_len);

/* Writes the finding that is nearest to an offset, which may be any number: its row as in tilghorz_list, then the distance, 8 bytes, lowest
 * byte first. The distance is 0 inside the finding, otherwise the difference between the offset and that of its first or its last byte, the
 * smaller. Of two findings that are equally near it is the earlier. Numbers: 1, 2, 3, 7 with 1, and 255 if the text has no finding,
 * whatever the length of the row. Value: 1. */
uint64_t tilghorz_nearest(const uint8_t *text, size_t text_len, const uint8_t *policy, size_t policy_len, uint64_t offset, uint8_t *row,
                          size_t row_len);

/* Gives the largest offset, at or below an offset, where bytes may be cut for two workers. Such a cut is the length of the bytes, or an
 * offset where a well-formed character begins that is no selector, modifier, 20E3 or tag. If the bytes are well-formed, both parts are, the
 * two parts formatted and joined are the whole formatted, and the eight totals add up. The call takes bytes and makes no test: they may be
 * longer than a text may be, and they need not be well-formed. So it has no refusal. The offset may be any number. It reads back from the
 * offset, so its time is by the distance to the cut. Number: 255 if there is no such offset. Value: the cut, which may be 0. */
uint64_t tilghorz_cut(const uint8_t *bytes, size_t bytes_len, uint64_t offset);

/* Begins a feed under a policy: writes it at the front of the buffer. Numbers: 2, 8. Value: the number of bytes of a feed. The other
 * functions take exactly these bytes. */
uint64_t tilghorz_feed_begin(const uint8_t *policy, size_t policy_len, uint8_t *feed, size_t feed_len);

/* Takes the next piece of a thread. It writes all but an unfinished character and a last base that has a variation entry, with its
 * selectors. Numbers: 9 if the feed has ended; 1 if the thread gets too long; 3 if the thread cannot go on to be well-formed, with the
 * offset from the thread's start, also where that character began in an earlier piece; 8 with 4 times the length of the piece plus 16,
 * which is always enough and always needed. Value: the number of bytes written, which may be 0. */
uint64_t tilghorz_feed_piece(uint8_t *feed, size_t feed_len, const uint8_t *piece, size_t piece_len, uint8_t *out, size_t out_len);

/* Ends a feed: writes the base that is still held. Numbers: 9; 10 if the thread ends inside a character; 8 with 16. Value: the number of
 * bytes written, at most 7. */
uint64_t tilghorz_feed_end(uint8_t *feed, size_t feed_len, uint8_t *out, size_t out_len);

/* Changes the policy of a feed. The bases whose last byte is fed after this call are judged by it; a base that is held keeps its policy, in
 * the output and in the totals. Numbers: 9 if the feed has ended; 2 if the policy has another length; 15; 2 if an unused bit is set.
 * Value: 0. */
uint64_t tilghorz_feed_policy(uint8_t *feed, size_t feed_len, const uint8_t *policy, size_t policy_len);

/* Writes the eight totals of the whole characters fed so far, as if the thread ended there, in the order of the counts of tilghorz_list. It
 * may be called at any time, also after the end. Number: 8 with 64. Value: 64. A total is 8 bytes, lowest byte first. */
uint64_t tilghorz_feed_totals(const uint8_t *feed, size_t feed_len, uint8_t *totals, size_t totals_len);

/* Reads a sheet and writes its policy. Numbers: 1 if the sheet is longer than a text may be; 11 with the offset of the first byte such that
 * no sheet begins with the bytes up to it, or with the length if the sheet breaks off, or with the start of a range whose end is below its
 * start, if a comma or 0A follows the range, whichever is smallest; 12 with the offset of the first code point that is no variation entry;
 * 8 with 200. Value: 200, the number of bytes of a policy. */
uint64_t tilghorz_read_sheet(const uint8_t *sheet, size_t sheet_len, uint8_t *out, size_t out_len);

/* Writes the sheet of a policy: the code points of a line ascend, each has the fewest digits allowed, and neighbouring entries of the
 * variation table are one range. Numbers: 2, 8. Value: the number of bytes written, at most 9916. Reading the sheet gives the policy. */
uint64_t tilghorz_write_sheet(const uint8_t *policy, size_t policy_len, uint8_t *out, size_t out_len);

/* Carries a policy over from the tables of another Unicode version: writes the policy for our tables. `entries` is the old variation table:
 * the code points in ascending order, 8 bytes each, lowest byte first. A list of V entries belongs to a policy of 4 W + 1 words, where W is
 * V / 64 rounded up; its first word, the version, may have any value. An entry of both tables keeps its four memberships, an entry that our
 * table has not is dropped, and a new entry gets those of the default policy. Numbers: 16 if the bytes are no whole numbers, if the list
 * does not ascend strictly or if the policy has another number of words; 2 if an unused bit of the policy is set; 8 with 200. Value: 200,
 * the number of bytes of a policy. */
uint64_t tilghorz_carry_policy(const uint8_t *entries, size_t entries_len, const uint8_t *policy, size_t policy_len, uint8_t *out,
                               size_t out_len);

/* Lists the memberships of a policy whose flip alone alters the formatted text: an entry that is added to one of the four sets, or taken
 * out of it, while all other memberships stay. Numbers: 1, 2, 3, 7. Value: the number of rows written, at most 1,416. A row is three
 * numbers of 8 bytes, lowest byte first: the code point of the entry; 0 for ordinary, 1 for keycap; 0 for prefer_bare, 1 for
 * bare_as_text. The rows are in the order of these numbers. The table has room for as many rows as fit into it whole. */
uint64_t tilghorz_tips(const uint8_t *text, size_t text_len, const uint8_t *policy, size_t policy_len, uint8_t *table, size_t table_len);

/* Begins a store of this capacity: writes it at the front of the buffer. The reserves are numbers of 8 bytes, lowest byte first, from
 * client 0 on; a client without one has the reserve 0. Numbers: 8; 13 if there are more than 16 reserves, or if the bytes are no whole
 * numbers; 14 with the capacity if the reserves sum to more. Value: the number of bytes of a store. The other functions take exactly
 * these bytes. A capacity of 2^56 or more is given as 2^56 - 1. */
uint64_t tilghorz_store_begin(uint64_t capacity, const uint8_t *reserves, size_t reserves_len, uint8_t *store, size_t store_len);

/* Formats a text under a policy, as tilghorz_format does, and charges the formatted length to a client under a number; a text that needs no
 * change charges its own length. Numbers: 1, 2, 3, 8, as tilghorz_format; 13 if the client is above 15, the number is above 255 or the
 * client uses the number; 14 with the number of bytes that would fit, if the charge does not fit what is left of the client's reserve and
 * of the common part together; 255 if the text needs no change. Value: the number of bytes written. An empty text uses its number. */
uint64_t tilghorz_store_file(uint8_t *store, size_t store_len, const uint8_t *text, size_t text_len, const uint8_t *policy,
                             size_t policy_len, uint64_t client, uint64_t number, uint8_t *out, size_t out_len);

/* Releases the message that a client filed under a number; the number can then be used again. Number: 13 if the client is above 15, the
 * number is above 255 or the client does not use the number. Value: the number of bytes given back. */
uint64_t tilghorz_store_release(uint8_t *store, size_t store_len, uint64_t client, uint64_t number);

/* Gives the number of bytes charged to a client. Number: 13 if the client is above 15. Value: the number of bytes. */
uint64_t tilghorz_store_used(const uint8_t *store, size_t store_len, uint64_t client);

/* Writes the default policy. Number: 8. Value: the number of bytes written. */
uint64_t tilghorz_default_policy(uint8_t *out, size_t out_len);

/* Gives the code point of a variation entry. Number: 255 if there is no such entry. Value: the code point. */
uint64_t tilghorz_variation_entry(uint64_t index);

/* Gives the Unicode version of the tables, as a policy begins with it. Value: major times 256 plus minor. */
uint64_t tilghorz_version(void);

#ifdef __cplusplus
}
#endif

#endif
