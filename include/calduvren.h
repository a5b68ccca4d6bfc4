/*
 * Calduvren: a probing verifier for masked gadgets over bits, for callers in C and C++ on x86-64 Linux. A caller is
 * linked with `-L crates/calduvren/out -lcalduvren`, after its own files; `rt lib --cpu x86-64`, in the folder
 * crates/calduvren, writes that library, libcalduvren.a, which needs nothing but the C library.
 *
 * A gadget computes on two operands, a and b, each a secret bit split into shares, and adds random bits, the masks.
 * A watcher reads a few of its wires. The functions below read a gadget's description into a table of its wires, tell
 * beforehand how large a check of it is, check its function, say whether it is NI and SNI at an order and show the first
 * breaking set, tell which operand a set gives away, number the sets of wires, divide the search over machines and pool
 * what the machines report. One writes a description: the multiplication of Ishai, Sahai and Wagner.
 *
 * Breaking sets
 *
 * A set of distinct wires, inner or outer, breaks NI when the sum of their records, bit by bit without carry, has no
 * mask and depends on more shares of a, or on more shares of b, than the set has wires. For SNI the number to exceed is
 * that of its inner wires; the outer ones are in the sum all the same. The sum depends on share i of a when a product
 * bit with that i, or the single bit of that share, is set; on share j of b likewise.
 *
 * A table is NI, or SNI, at an order from 1 to shares - 1 exactly when no set of 1 to that many wires breaks the notion.
 * So say calduvren_verdict and calduvren_directed_verdict, and so do range checks that are clean for EVERY size from 1 to
 * the order over ALL ranks of that size; calduvren_pool tells whether all of them were reported. A set that is found
 * breaks every order from its size on; a clean range, or a clean size above 1, by itself says nothing of an order.
 *
 * What holds says is about one gadget whose masks are random, fresh and used nowhere else, and whose operands are shared
 * at random, independently of each other. It says nothing of gadgets put together, of a whole by its parts, of glitches,
 * or of the function.
 *
 * What every function does
 *
 * - It returns a status: 0, which is CALDUVREN_OK, or the number of the refusal. A refusal alters no lent memory; the
 *   one exception is the `offset` of calduvren_read_text and calduvren_check_size, which says where in the text the
 *   refusal is. The refusals of each function are listed in the order in which they are tested (those of a text come by
 *   their offset first), and nothing else is refused. Their names stand below, CALDUVREN_REFUSED_...
 * - With status 0 it writes its answer through the pointers. A number that is named below as written is written, and
 *   no other is touched; of a lent buffer nothing is touched past what is written.
 * - Every number may have any value and every buffer any contents. A call always returns, but nothing interrupts it:
 *   calduvren_verdict and a range check take 1.5 to 6 nanoseconds for each set that they look at, and a verdict that
 *   finds no breaking set looks at every set of up to as many wires as the order (of 512 wires, months at order 7).
 *   calduvren_check_size tells beforehand how many these are, from a text alone; calduvren_set_count does so from a
 *   number of wires, and calduvren_job divides them for range checks. calduvren_directed_verdict gives the same verdict
 *   and looks at few of these sets where the table is that of a gadget, and so does a report; where most wires carry most
 *   masks they take longer than calduvren_verdict.
 * - `yes`, `holds` and `clean` are 1 where the answer is good and 0 where it is not, and a pool's `answer` is 1 where it
 *   holds: a caller that sets them to 0 beforehand takes no refusal for a good answer. A table of length 0 is a table of
 *   no wires, and holds.
 *
 * What a caller owes
 *
 * - A pointer that comes with a length is valid for so many elements (bytes, or numbers of 16 or of 64 bits), and a
 *   pointer to a number for that number. Each is aligned for its type.
 * - No pointer is null, also where the length is 0: the library's own compiler promises nothing for a null pointer, so
 *   this header can not. With length 0 pass the address of any object of the type, as a local variable's. In C++, where
 *   data() of an empty vector may be null: `uint8_t none = 0;` and `text.empty() ? &none : text.data(), text.size()`.
 * - What a call writes overlaps nothing else that it is given: the lent numbers and the buffers are apart.
 * - No other thread writes to what is lent, or reads what is written, until the call has returned. Beside this any
 *   number of calls may run at the same time: there is no state between calls.
 * - There are CALDUVREN_STACK_BYTES of stack.
 */
#ifndef CALDUVREN_H
#define CALDUVREN_H

#include <stddef.h>
#include <stdint.h>

#ifdef __cplusplus
extern "C" {
#endif

/*
 * The version, for #if: major * 10000 + minor * 100 + patch, so 20400 is 2.4.0. A version that adds a function raises
 * the minor number, one that changes what a call with the same arguments answers raises the major one, and any other
 * the patch. Header and library belong together: the library tells no version of its own, so keep it with the header
 * that it came with.
 */
#define CALDUVREN_VERSION 20400

#define CALDUVREN_MAX_TEXT_BYTES 4096
#define CALDUVREN_RECORD_BYTES 24
#define CALDUVREN_MAX_WIRES 512
#define CALDUVREN_MAX_TABLE_BYTES 12288
#define CALDUVREN_MAX_SHARES 8
#define CALDUVREN_MAX_MASKS 64
#define CALDUVREN_MAX_ORDER 7
#define CALDUVREN_MAX_SIZE 7
#define CALDUVREN_MAX_JOBS 65536
#define CALDUVREN_MAX_REPORT_BYTES 512
#define CALDUVREN_MAX_ISW_ORDER 7
#define CALDUVREN_FILED_REPORT_BYTES 32
#define CALDUVREN_STACK_BYTES 262144

/* The notions. */
#define CALDUVREN_NI 1
#define CALDUVREN_SNI 2

/* The functions of calduvren_function_check. */
#define CALDUVREN_PRODUCT 1
#define CALDUVREN_SUM 2
#define CALDUVREN_COPY 3

/* The answers of calduvren_pool. 0 is none of them. */
#define CALDUVREN_POOL_HOLDS 1
#define CALDUVREN_POOL_BROKEN 2
#define CALDUVREN_POOL_UNCOVERED 3

/*
 * The statuses. CALDUVREN_OK says that the call was answered, not that the answer is good: `yes`, `holds`, `clean` and
 * a pool's `answer` say that. Functions share some of the numbers; each lists its own.
 */
#define CALDUVREN_OK 0
#define CALDUVREN_REFUSED_TEXT_TOO_LONG 1     /* the text has over 4,096 bytes */
#define CALDUVREN_REFUSED_FIRST_LINE 2        /* the text's first line is wrong */
#define CALDUVREN_REFUSED_SECOND_LINE 3       /* its second line is wrong or absent */
#define CALDUVREN_REFUSED_SYMBOL 4            /* no such symbol (as r64 or r01), or a share beyond the order */
#define CALDUVREN_REFUSED_UNDECLARED_MASK 5   /* a well-formed mask that is not declared */
#define CALDUVREN_REFUSED_PARENTHESIS 6       /* closed with none open or nothing inside, or left open */
#define CALDUVREN_REFUSED_BAR 7               /* a bar */
#define CALDUVREN_REFUSED_DEPTH 8             /* a parenthesis opened when sixteen are open */
#define CALDUVREN_REFUSED_LINES 9             /* too many output lines, or too few */
#define CALDUVREN_REFUSED_WIRES 10            /* over 512 wires, or more than the lent table has room for */
#define CALDUVREN_REFUSED_SHARES_OR_MASKS 11  /* shares not 2 to 8, or masks over 64 */
#define CALDUVREN_REFUSED_TABLE_LENGTH 12     /* table_length no multiple of 24 or over 12,288, or wires over 512 */
#define CALDUVREN_REFUSED_RECORD 13           /* a record with a bit beyond shares or masks, or byte 18 over 1 */
#define CALDUVREN_REFUSED_NOTION 14           /* notion neither NI nor SNI */
#define CALDUVREN_REFUSED_ORDER 15            /* order not 1 to shares - 1 */
#define CALDUVREN_REFUSED_BUFFER 16           /* the set, sets or buffer lent for the answer is too short */
#define CALDUVREN_REFUSED_SIZE 17             /* a set of over 7 wires */
#define CALDUVREN_REFUSED_RANKS 18            /* a rank that no set has, or bounds beyond the sets or falling */
#define CALDUVREN_REFUSED_JOBS 19             /* no jobs, over 65,536, or job not below jobs */
#define CALDUVREN_REFUSED_FUNCTION 20         /* function neither product nor sum nor copy */
#define CALDUVREN_REFUSED_WIRE_NUMBERS 21     /* wire numbers not strictly rising, or one beyond the table */
#define CALDUVREN_REFUSED_TEXT_PART 22        /* the wire's part lies outside the text */
#define CALDUVREN_REFUSED_ISW_ORDER 23        /* order of the multiplication not 1 to 7 */
#define CALDUVREN_REFUSED_ISW_ROOM 24         /* the multiplication's text is longer than the buffer lent for it */
#define CALDUVREN_REFUSED_FILED_REPORT 25     /* reports no multiple of 32 bytes, or a report out of form */
#define CALDUVREN_REFUSED_FIND 26             /* a report's found rank is not a breaking set */

/* CALDUVREN_OK, or the number of a refusal. */
typedef uint64_t calduvren_status;

/*
 * Reads a description text into the table of its wires. A text has at most 4,096 bytes, in lines that end in byte 10
 * (the last may lack it). An example, the multiplication of Ishai, Sahai and Wagner at order 1:
 *   ORDER = 1             one digit, 1 to 7; there are order + 1 shares of each operand, numbered from 0
 *   MASKS = [r0]          nothing, or names parted by a comma and a space: r0 to r63 without leading zeros, none twice
 *   s00 r0                then order + 1 output lines; lines of spaces only, or empty, are skipped
 *   s11 ((r0 s01) s10)
 * An output line is a group: items side by side are added, left to right. An item is a symbol or a group in
 * parentheses, nested at most 16 deep. `s01` is the product of share 0 of a and share 1 of b, `a0` and `b0` are shares,
 * `r0` is a mask; a symbol is the longest run of bytes without space, parenthesis, bar or line end.
 *
 * A table has a record of 24 bytes for each wire:
 *   bytes 0 to 7    products, bit 8i + j for share i of a and share j of b     (all numbers little-endian)
 *   bytes 8 to 15   masks, bit k for mask k
 *   byte 16, 17     shares of a, shares of b, bit i for share i
 *   byte 18         0 inner, 1 outer
 *   byte 19         number of the output line from 0; 0 for an inner wire
 *   bytes 20, 21    offset in the text of the part that computes the wire; bytes 22, 23 its length
 * The wires are listed in the order in which they are worked out, items left to right, an item before the addition that
 * takes it. A symbol's first use makes an inner wire, later uses none. Each addition makes a wire: the last of a line is
 * outer, the others are inner. A line of one symbol gets an outer wire of its own.
 *
 * Tables may also come from a caller's own tools. A verdict is about the wires that are listed and no others: a table
 * that leaves out the sums on the way may hold where its gadget does not. Only calduvren_text_part looks at bytes 20 to
 * 23, and nothing at 19.
 *
 * Written with status 0: order, shares (of each operand), masks (the mask count: the highest number + 1, or 0) and
 * wires, and the first 24 * wires bytes of table. A table of CALDUVREN_MAX_TABLE_BYTES is always long enough. The other
 * functions are then given 24 * wires as its length: the whole buffer would count as 512 wires.
 * Written with any other status: offset, the place in the text.
 *
 * Refusals, that at the lowest offset, and at one offset the first of:
 *   1   over 4,096 bytes (offset 4,096; before all others)
 *   2   first line wrong (offset 0)
 *   3   second line wrong or absent (where it starts, or the text's length)
 *   9   a line too many (its first byte that is no space)
 *   8   a parenthesis opened when sixteen are open
 *   7   a bar
 *   4   no such symbol, a mask name out of form too (as r64 or r01), or a share beyond the order (its start)
 *   5   a well-formed mask that is not declared (its start)
 *   6   a closing parenthesis with none open or nothing inside; at a line's end, one still open
 *   9   lines too few (the text's length)
 *   10  over 512 wires, or table too short (the text's length)
 */
calduvren_status calduvren_read_text(const uint8_t *text, size_t text_length, uint8_t *table, size_t table_length,
                                     size_t *order, size_t *shares, size_t *masks, size_t *wires, size_t *offset);

/*
 * Where the part of the text that computes a wire stands: text[offset] up to, without, text[offset + length]. It goes
 * by the wire's record alone, so the table has to be the one that was read from this text.
 *
 * Written: offset and length; offset + length is at most text_length.
 *
 * Refusals:
 *   12  table_length no multiple of 24, or over 12,288
 *   21  wire beyond the table
 *   22  the part lies outside the text
 */
calduvren_status calduvren_text_part(const uint8_t *text, size_t text_length, const uint8_t *table, size_t table_length,
                                     size_t wire, size_t *offset, size_t *length);

/*
 * The size of a check, from a text alone, before anything is run: how many wires the text has, how many bytes their
 * table takes, and how many sets of each size there are, which is what calduvren_verdict looks at where the text's order
 * holds. calduvren_directed_verdict, and a report for each of its two verdicts, mostly look at far fewer. The text is
 * read as by calduvren_read_text, but no table is lent, so none is too short.
 *
 * Written with status 0: order, shares, masks and wires, as calduvren_read_text writes them; bytes, which is 24 * wires,
 * the length of a table with just enough room; and the first `order` elements of sets: sets[k - 1] is how many sets of k
 * out of these wires there are, as calduvren_set_count tells it. A length of CALDUVREN_MAX_ORDER is always enough for
 * sets. offset is left as it was.
 * Written with a status from 1 to 10: offset alone, the place in the text. With 16 nothing is written.
 *
 * Refusals, those of a text first: that at the lowest offset, and at one offset the first of:
 *   1   over 4,096 bytes (offset 4,096; before all others)
 *   2   first line wrong (offset 0)
 *   3   second line wrong or absent (where it starts, or the text's length)
 *   9   a line too many (its first byte that is no space)
 *   8   a parenthesis opened when sixteen are open
 *   7   a bar
 *   4   no such symbol, a mask name out of form too (as r64 or r01), or a share beyond the order (its start)
 *   5   a well-formed mask that is not declared (its start)
 *   6   a closing parenthesis with none open or nothing inside; at a line's end, one still open
 *   9   lines too few (the text's length)
 *   10  over 512 wires, and nothing else (the text's length)
 *   16  sets_length below the text's order (only where the text is not refused)
 */
calduvren_status calduvren_check_size(const uint8_t *text, size_t text_length, uint64_t *sets, size_t sets_length,
                                      size_t *order, size_t *shares, size_t *masks, size_t *wires, size_t *bytes,
                                      size_t *offset);

/*
 * Whether the outer wires of a table add up, for every value of shares and masks, to a function: CALDUVREN_PRODUCT of
 * the two operands, their CALDUVREN_SUM, or operand a, CALDUVREN_COPY.
 *
 * Written: yes, 1 or 0.
 *
 * Refusals:
 *   11  shares not 2 to 8, or masks over 64
 *   12  table_length no multiple of 24, or over 12,288
 *   13  a record with a bit beyond shares or masks, or byte 18 over 1
 *   20  function not 1 to 3
 */
calduvren_status calduvren_function_check(const uint8_t *table, size_t table_length, size_t shares, size_t masks,
                                          size_t function, uint64_t *yes);

/*
 * Whether a table is CALDUVREN_NI or CALDUVREN_SNI at an order: whether for every set of at most that many wires,
 * shares of a and of b can be chosen, of each no more than the set has wires (for SNI, inner wires), so that inputs that
 * agree on them give every pattern on the set's wires from equally many mask settings.
 *
 * Written: holds, 1 or 0. Where it is 0 also size, and the wire numbers of the first breaking set in rising size and
 * rank, rising, in the first `size` elements of set. No such choice can be made for that set.
 *
 * Refusals:
 *   11  shares not 2 to 8, or masks over 64
 *   12  table_length no multiple of 24, or over 12,288
 *   13  a record with a bit beyond shares or masks, or byte 18 over 1
 *   14  notion not 1 or 2
 *   15  order not 1 to shares - 1
 *   16  set_length below order
 */
calduvren_status calduvren_verdict(const uint8_t *table, size_t table_length, size_t shares, size_t masks,
                                   size_t notion, size_t order, uint16_t *set, size_t set_length,
                                   uint64_t *holds, size_t *size);

/*
 * The verdict of calduvren_verdict, much sooner for a gadget: the same arguments, the same answer, the same first
 * breaking set and the same refusals in the same order. Only the search is another. It starts at a wire and goes on only
 * with wires that carry a mask which is left in the sum so far: as long as no smaller set breaks, a set that can be cut
 * into two parts whose sums have no mask breaks nothing either. In a gadget a mask stands in few of the wires, so few
 * sets are left to look at: for a multiplication at order 7 this takes 0.1 seconds or less, where calduvren_verdict
 * takes hours.
 *
 * It is not always the faster one. Where most wires carry most masks, most sets are left and each takes longer: up to
 * some ten times the time of calduvren_verdict where the notion holds (measured with each of 64 masks in seven of eight
 * wires: 4 to 5 times for 60 wires at order 5, 9 times for 16 wires at order 7). Where the notion is broken,
 * calduvren_verdict ends at the first set; this one goes on until no set of that size can have a lower rank.
 *
 * Written: holds, 1 or 0. Where it is 0 also size, and the wire numbers of the first breaking set in rising size and
 * rank, rising, in the first `size` elements of set. calduvren_verdict writes the very same.
 *
 * Refusals:
 *   11  shares not 2 to 8, or masks over 64
 *   12  table_length no multiple of 24, or over 12,288
 *   13  a record with a bit beyond shares or masks, or byte 18 over 1
 *   14  notion not 1 or 2
 *   15  order not 1 to shares - 1
 *   16  set_length below order
 */
calduvren_status calduvren_directed_verdict(const uint8_t *table, size_t table_length, size_t shares, size_t masks,
                                            size_t notion, size_t order, uint16_t *set, size_t set_length,
                                            uint64_t *holds, size_t *size);

/*
 * Whether no set of `size` wires at the ranks from `from` up to, without, `to` breaks the notion. An order takes every
 * size from 1 up to it, each over all its ranks; calduvren_job divides the ranks of a size.
 *
 * Written: clean, 1 or 0. Where it is 0 also found (the set's size, which is `size`), rank, and the wire numbers of the
 * set at the first such rank, rising, in the first `size` elements of set.
 *
 * Refusals:
 *   11  shares not 2 to 8, or masks over 64
 *   12  table_length no multiple of 24, or over 12,288
 *   13  a record with a bit beyond shares or masks, or byte 18 over 1
 *   14  notion not 1 or 2
 *   17  size over 7
 *   16  set_length below size
 *   18  from above to, or to above the number of sets of that size
 */
calduvren_status calduvren_range_check(const uint8_t *table, size_t table_length, size_t shares, size_t masks,
                                       size_t notion, size_t size, uint64_t from, uint64_t to,
                                       uint16_t *set, size_t set_length,
                                       uint64_t *clean, size_t *found, uint64_t *rank);

/*
 * Writes the report of a range check, for calduvren_pool: what was checked, and what calduvren_range_check answered. Give
 * it `clean` and `rank` as that call wrote them; where clean is 1, rank is not looked at. A report is 32 bytes, numbers
 * little-endian:
 *   0         the notion
 *   1         the size
 *   2 to 7    filling, 0
 *   8 to 15   from
 *   16 to 23  to
 *   24 to 31  the found rank; all ones bits where the ranks are clean
 *
 * Written: all 32 bytes of report.
 *
 * Refusals:
 *   25  report_length not 32, or numbers that stand in no report, whatever the table and the order: notion not 1 or 2,
 *       size not 1 to 7, from above to, to above the number of sets of that size of 512 wires, clean over 1, or clean 0
 *       and rank below from or not below to
 */
calduvren_status calduvren_filed_report(size_t notion, size_t size, uint64_t from, uint64_t to,
                                        uint64_t clean, uint64_t rank, uint8_t *report, size_t report_length);

/*
 * What the reports of many machines come to: a list of reports as calduvren_filed_report writes them, one after the
 * other, in any order. Ranks may be covered more than once, and reports may stand in the list more than once.
 *
 * answer is
 *   CALDUVREN_POOL_BROKEN     a report has a found rank: size and rank are those of the smallest size and then the lowest
 *                             rank found. The set there breaks the notion (calduvren_set_from_rank gives its wires).
 *   CALDUVREN_POOL_UNCOVERED  no report has one, and some ranks are in no report: size and rank are the first such rank of
 *                             the first such size, from 1 to the order. It says nothing of the notion.
 *   CALDUVREN_POOL_HOLDS      no report has one, and every rank of every size from 1 to the order is in a report.
 * Every found rank is checked again, a clean report is believed: where all of these are true, of this table, holds and
 * broken are calduvren_verdict's answers, though the set that it shows may be an earlier one. A report does not name its
 * table, and nothing notices a clean report of another one: keep those of different tables apart.
 *
 * The list may have any length. Reports in rising or in falling order are pooled in time linear in the list; in any other
 * order a pass over the list is made for some 256 reports of a size (65,536 shuffled ones: some tenth of a second).
 *
 * Written: answer. Where it is not CALDUVREN_POOL_HOLDS also size and rank.
 *
 * Refusals:
 *   11  shares not 2 to 8, or masks over 64
 *   12  table_length no multiple of 24, or over 12,288
 *   13  a record with a bit beyond shares or masks, or byte 18 over 1
 *   14  notion not 1 or 2
 *   15  order not 1 to shares - 1
 *   25  reports_length no multiple of 32, or a report with another notion, a size not 1 to order, filling that is not 0,
 *       from above to, to above the number of sets of that size, or a found rank below from or not below to
 *   26  a found rank whose set does not break the notion
 */
calduvren_status calduvren_pool(const uint8_t *table, size_t table_length, size_t shares, size_t masks,
                                size_t notion, size_t order, const uint8_t *reports, size_t reports_length,
                                uint64_t *answer, size_t *size, uint64_t *rank);

/*
 * Which operand leaks: on how many shares of a, and on how many of b, the sum of a set's records depends, how many of
 * each the notion allows the set, and whether a mask is left in the sum. The set is any of up to 7 wires of the table,
 * also the empty one. It breaks the notion exactly where masked is 0 and of_a or of_b is above allowed.
 *
 * After a verdict that is broken call it with the set shown and its size: just the operands leak whose count is above
 * allowed, one of the two or both. After a range check that is not clean these leak too, and the other one may leak by
 * a smaller part of the set. For such sets masked is 0; where it is 1, the masks hide what the set depends on.
 *
 * Written: of_a and of_b, also where a mask is left; allowed, which is how many wires the set has (for SNI, inner
 * wires); masked, 1 or 0. With a refusal they are as they were: look at the status first, since numbers that were 0
 * before the call read as a set that breaks nothing.
 *
 * Refusals:
 *   11  shares not 2 to 8, or masks over 64
 *   12  table_length no multiple of 24, or over 12,288
 *   13  a record with a bit beyond shares or masks, or byte 18 over 1
 *   14  notion not 1 or 2
 *   17  set_length over 7
 *   21  wire numbers not strictly rising, or one beyond the table
 */
calduvren_status calduvren_set_dependence(const uint8_t *table, size_t table_length, size_t shares, size_t masks,
                                          size_t notion, const uint16_t *set, size_t set_length,
                                          size_t *of_a, size_t *of_b, size_t *allowed, uint64_t *masked);

/*
 * How many sets of `size` out of `wires` wires there are; 0 where the size is above the wires.
 *
 * Written: sets.
 *
 * Refusals:
 *   12  wires over 512
 *   17  size over 7
 */
calduvren_status calduvren_set_count(size_t wires, size_t size, uint64_t *sets);

/*
 * The set at a rank; ranks start at 0. The order of the sets of k out of n wires is the revolving door: first those
 * without wire n - 1 in their order, then those with it, in the reverse order of their other k - 1 wires. For k = 2:
 * {0,1}, {1,2}, {0,2}, {2,3}, {1,3}, {0,3}.
 *
 * Written: the set's wire numbers, rising, in the first `size` elements of set.
 *
 * Refusals:
 *   12  wires over 512
 *   17  size over 7
 *   16  set_length below size
 *   18  rank not below the number of sets
 */
calduvren_status calduvren_set_from_rank(size_t wires, size_t size, uint64_t rank, uint16_t *set, size_t set_length);

/*
 * The rank of a set among the sets of its size, which is set_length.
 *
 * Written: rank.
 *
 * Refusals:
 *   12  wires over 512
 *   17  set_length over 7
 *   21  wire numbers not strictly rising, or not below wires
 */
calduvren_status calduvren_rank_from_set(size_t wires, const uint16_t *set, size_t set_length, uint64_t *rank);

/*
 * The ranks that job number `job`, from 0, of `jobs` has to visit: from `from` up to, without, `to`. The jobs of one
 * division visit each set exactly once.
 *
 * Written: from and to.
 *
 * Refusals:
 *   12  wires over 512
 *   17  size over 7
 *   19  no jobs, over 65,536, or job not below jobs
 */
calduvren_status calduvren_job(size_t wires, size_t size, uint64_t job, uint64_t jobs, uint64_t *from, uint64_t *to);

/*
 * The report on a description text: what was read, its function and both verdicts at its order, in lines that end in
 * byte 10. That of a verdict is as `NI holds`, or as `NI broken 6 by both`: the wires of the first breaking set, and
 * ` by a`, ` by b` or ` by both` for the operands that leak (calduvren_set_dependence has the counts). A text that
 * calduvren_read_text turns down, a table of CALDUVREN_MAX_TABLE_BYTES lent, has a report too, with status 0: one line,
 * as `refused 7 at 31`.
 *
 * Written: length, and the report's bytes in the first `length` bytes of buffer. No byte 0 follows them. A buffer of
 * CALDUVREN_MAX_REPORT_BYTES is always long enough.
 *
 * Refusals:
 *   16  buffer_length below the report's length
 */
calduvren_status calduvren_report_text(const uint8_t *text, size_t text_length, uint8_t *buffer, size_t buffer_length,
                                       size_t *length);

/*
 * Writes a description text: the multiplication of Ishai, Sahai and Wagner at an order. That of order 2:
 *   ORDER = 2
 *   MASKS = [r0, r1, r2]
 *   s00 r0 r1
 *   s11 ((r0 s01) s10) r2
 *   s22 ((r1 s02) s20) ((r2 s12) s21)
 * Each pair of shares i < j has a mask, numbered from r0 in the order 0 1, 0 2 and so on, then 1 2. Line i begins with
 * the product of shares i and i. Then comes for each other j, rising, the pair's mask where j is above i, and where it
 * is below, the mask with the pair's two products, j i before i j. Items are parted by one space, and each line ends in
 * byte 10.
 *
 * Every such text is read by calduvren_read_text, without refusal, into any table that is long enough: order + 1 shares,
 * order * (order + 1) / 2 masks and, at the orders from 1 to 7, 9, 24, 46, 75, 111, 154 and 204 wires. On that table
 * calduvren_function_check says yes to CALDUVREN_PRODUCT. That it is NI or SNI is not promised here: calduvren_verdict
 * tells it, and calduvren_directed_verdict.
 *
 * Written: length, and the text's bytes in the first `length` bytes of text. No byte 0 follows them. A buffer of
 * CALDUVREN_MAX_TEXT_BYTES is always long enough.
 *
 * Refusals:
 *   23  order not 1 to 7
 *   24  text_length, the bytes that are lent, below the length of the order's text
 */
calduvren_status calduvren_isw_text(size_t order, uint8_t *text, size_t text_length, size_t *length);

#ifdef __cplusplus
}
#endif

#endif
