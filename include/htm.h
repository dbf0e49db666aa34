/* HTM: the calls of a proved Hierarchical Triangular Mesh for a host in C99 or later, or in C++.
 *
 * Building: link with the archive, or with what make install puts in place:
 *     cc -Iinclude host.c target/staticlib/libhtm.a
 *     cc host.c $(pkg-config --cflags --libs htm)
 * The library is for x86-64 Linux. Of the C library it needs memcpy and memset, and nothing else.
 *
 * Pointings: a pointing is three whole numbers x, y, z, which are HTM_K times a unit vector. Each
 * is from -HTM_K to HTM_K, and x*x + y*y + z*z is from (HTM_K - 2)^2 to (HTM_K + 2)^2.
 *
 * Trixels: an identifier is a trixel's number: S is binary 10, N is binary 11, then two bits a
 * digit. Depth 1 is one of the eight roots, S0 to N3, which are 8 to 15. No identifier is 0.
 * Identifiers and names go to depth HTM_MAX_NAME_DEPTH; lookups, corners and region files go to
 * depth HTM_MAX_DEPTH.
 *
 * Boundaries: a halfspace of direction n and offset d holds the point p when n.p >= d * HTM_K. A
 * point on the plane is held, also by the opposite halfspace. Ranges of identifiers include both
 * ends. A point on the edge of two trixels is in one of them, that of lookup.
 *
 * Files: a region file is plain or grouped. A plain file has a record for each convex and one for
 * each halfspace (kinds 2 and 3). A grouped file has one record for each convex with all its
 * halfspaces (kind 5). Every call that reads a region file takes either style.
 *
 * Lists: a list is a pointer and a length. The length counts elements; they are bytes where its
 * name ends in _bytes. The caller owns every list. A call reads and writes its lists while it runs,
 * allocates nothing and keeps nothing. It writes the elements that it is said to write, and every
 * other element keeps its value. A list that is longer than needed serves too.
 * The caller sees to three things. A length is not more than what is there. A pointer is not null,
 * unless its length is 0. A list that is written overlaps no other list of the call. Nothing else
 * is forbidden: no length, no byte of a file and no value of another argument. What breaks a rule
 * is refused.
 *
 * Threads: the library has no global state and is reentrant. Threads may call it at the same time,
 * as long as none writes a list that another one uses.
 *
 * Stack: a call takes less than 1 KB, but for these, which take up to: lookups, htm_add and
 * htm_corners 4 KB; htm_read, htm_header, htm_holds, htm_to_grouped and htm_to_plain 11 KB;
 * htm_cover and htm_frames 86 KB; htm_trial 90 KB (measured). */
#ifndef HTM_H
#define HTM_H

#include <stddef.h>
#include <stdint.h>

#ifdef __cplusplus
extern "C" {
#endif

/* Version: of this header, and of the library that it comes with. */
#define HTM_VERSION "1.0.0"
#define HTM_VERSION_MAJOR 1
#define HTM_VERSION_MINOR 0
#define HTM_VERSION_PATCH 0

/* Refusals: a call that returns an int64_t returns -N for refusal N, as -HTM_SPACE; every other
 * answer is 0 or more. lookup and htm_identifier return 0 instead. After a refusal every element of
 * every list has its old value.
 * 'Minus the first of' names the refusals of a call in the order of its checks. HTM_SPACE comes
 * after all other checks, but for htm_add and htm_remove. 'The refusal of the file' is that of a
 * region file's first failed check, one of 1 to 9 and 14. */
enum htm_refusal {
    HTM_LONG = 1,    /* a region file has over HTM_FILE_BYTES bytes */
    HTM_TORN = 2,    /* a record does not fit what is left of the file */
    HTM_KIND = 3,    /* a record is of an unknown kind, or not of its length */
    HTM_ORDER = 4,   /* records or rows are out of order, or missing */
    HTM_DEPTH = 5,   /* a depth is not from 1 to HTM_MAX_DEPTH */
    HTM_BUDGET = 6,  /* a budget is over HTM_MAX_BUDGET */
    HTM_CROWD = 7,   /* over 64 convexes, 100 halfspaces in one, or 512 in all */
    HTM_VECTOR = 8,  /* a direction or a point is no pointing */
    HTM_OFFSET = 9,  /* an offset is not from -HTM_K to HTM_K */
    HTM_SPACE = 10,  /* a list is too short */
    HTM_NAME = 11,   /* no name or no identifier; for htm_corners, also one too deep */
    HTM_FLOAT = 12,  /* a float is a NaN, an infinity, or beyond 1 in size */
    HTM_LINE = 13,   /* a catalogue line is malformed */
    HTM_MIXED = 14,  /* a record is of the other style than the file's first convex */
    HTM_TWICE = 15,  /* the number is already one of the owner's */
    HTM_FULL = 16,   /* the owner has 1024 exposures */
    HTM_ABSENT = 17, /* the number is not one of the owner's */
    HTM_OWNER = 18   /* an owner is not 0 or 1 */
};

/* Limits: of depths, budgets and components. */
#define HTM_K 1048576         /* the length of a pointing, but for rounding */
#define HTM_MAX_DEPTH 12      /* the greatest depth of lookups, corners and region files */
#define HTM_MAX_NAME_DEPTH 31 /* the greatest depth of names and identifiers */
#define HTM_DEFAULT_BUDGET 16 /* what a budget of 0 counts as */
#define HTM_MAX_BUDGET 2048   /* the largest budget */

/* Lengths: a list of this length is always long enough. For a name, a file, rows and ranges fewer
 * elements may do; each call says when. */
#define HTM_NAME_BYTES 32        /* a name */
#define HTM_CORNERS_LENGTH 9     /* the corners of a trixel */
#define HTM_FILE_BYTES 10508     /* a region file */
#define HTM_ROWS_LENGTH 2560     /* the rows of a region file: five for each of 512 halfspaces */
#define HTM_HEADER_LENGTH 3      /* count, depth and budget by htm_read */
#define HTM_CONTENTS_LENGTH 4    /* counts, depth and budget by htm_header */
#define HTM_RANGES_LENGTH 8192   /* both lists of a cover: four for each of HTM_MAX_BUDGET */
#define HTM_COVER_COUNTS 6       /* the counts of htm_cover */
#define HTM_INDEX_LENGTH 12289   /* an index: a count, and six for each of 2048 exposures */
#define HTM_ENTRY_LENGTH 6       /* an entry of an index */
#define HTM_NUMBERS_LENGTH 1024  /* the numbers of htm_frames */
#define HTM_FRAME_COUNTS 2       /* the counts of htm_frames */
#define HTM_TRIAL_COUNTS 11      /* the counts of htm_trial */
#define HTM_PART_LENGTH 2        /* the answer of htm_chosen */

/* Finds the trixel in which a pointing lies.
 * Arguments: the pointing (x, y, z); the depth, 1 to HTM_MAX_DEPTH.
 * Returns: the identifier of the trixel; 0 for a refusal: HTM_DEPTH, or HTM_VECTOR where (x, y, z)
 * is no pointing. */
uint64_t lookup(int32_t x, int32_t y, int32_t z, uint32_t depth);

/* Finds the trixel in which a pointing lies, and says why where it refuses.
 * Arguments: the pointing (x, y, z); the depth, 1 to HTM_MAX_DEPTH.
 * Returns: the identifier of the trixel, below 2^26; or minus the first of: HTM_DEPTH; HTM_VECTOR. */
int64_t htm_lookup(int32_t x, int32_t y, int32_t z, uint32_t depth);

/* Finds the trixel in which a mount's report lies, three floats of a unit vector in double or in
 * single precision. Each float is multiplied by HTM_K and truncated toward zero, so that -0.3
 * becomes -314572; then the lookup follows.
 * Arguments: the floats x, y, z, each from -1 to 1; the depth, 1 to HTM_MAX_DEPTH.
 * Returns: the identifier of the trixel, below 2^26; or minus the first of: HTM_DEPTH; HTM_FLOAT;
 * HTM_VECTOR. */
int64_t htm_lookup_f64(double x, double y, double z, uint32_t depth);
int64_t htm_lookup_f32(float x, float y, float z, uint32_t depth);

/* Finds the trixel of a catalogue line: three decimals parted by one blank and closed by one line
 * feed, with nothing after it, in ASCII. A decimal is an optional minus, a 0 or 1, a point and one
 * to seven digits. Its value times HTM_K is truncated toward zero, and the sign belongs to the
 * whole number: -0.5 is -524288, -0.0 is 0. Then the lookup follows.
 * Arguments: the line, its line feed included, of which the longest has 33 bytes; the depth, 1 to
 * HTM_MAX_DEPTH.
 * Returns: the identifier of the trixel, below 2^26; or minus the first of: HTM_DEPTH; HTM_LINE;
 * HTM_VECTOR. */
int64_t htm_lookup_line(const uint8_t *line, size_t line_bytes, uint32_t depth);

/* Gives the name of an identifier: S or N and as many digits 0 to 3 as the depth, in ASCII.
 * Arguments: the identifier, of depth 1 to HTM_MAX_NAME_DEPTH.
 * Writes: the name, from name[0] on, with no zero byte after it.
 * Returns: the length of the name, 2 to HTM_NAME_BYTES; or minus the first of: HTM_NAME where id is
 * no identifier; HTM_SPACE where the name is longer than name_bytes. */
int64_t htm_name(uint64_t id, uint8_t *name, size_t name_bytes);

/* Gives the identifier of a name.
 * Arguments: the name, 2 to HTM_NAME_BYTES bytes with no zero byte: S or N and 1 to
 * HTM_MAX_NAME_DEPTH digits 0 to 3, in ASCII.
 * Returns: the identifier, with no sign, since one of depth 31 has bit 63; 0 for a refusal, which
 * is always HTM_NAME. */
uint64_t htm_identifier(const uint8_t *name, size_t name_bytes);

/* Gives the three corners of a trixel, in the unit of a pointing.
 * Arguments: the identifier of the trixel, of depth 1 to HTM_MAX_DEPTH.
 * Writes: corners[0] to corners[8], each from -HTM_K to HTM_K: x, y, z of the first corner, of the
 * second and of the third.
 * Returns: 0; or minus the first of: HTM_NAME where id is no identifier or deeper than
 * HTM_MAX_DEPTH; HTM_SPACE where corners_length is under HTM_CORNERS_LENGTH. */
int64_t htm_corners(uint64_t id, int32_t *corners, size_t corners_length);

/* Reads a region file.
 * Arguments: the file, in either style.
 * Writes: rows, from rows[0] on, five numbers for each halfspace: the number of its convex, from 0
 * on, its direction x, y, z and its offset d. header[0] is the count of the rows, header[1] the
 * depth and header[2] the budget, as written: a budget of 0, which counts as HTM_DEFAULT_BUDGET in
 * a cover, is 0 here.
 * Returns: 0; or minus the first of: the refusal of the file; HTM_SPACE where rows_length is under
 * five times the count or header_length under HTM_HEADER_LENGTH. */
int64_t htm_read(const uint8_t *file, size_t file_bytes, int32_t *rows, size_t rows_length,
                 uint64_t *header, size_t header_length);

/* Gives what a region file says without its rows.
 * Arguments: the file.
 * Writes: contents[0], the count of halfspaces; contents[1], the depth; contents[2], the budget as
 * written; contents[3], the count of convexes. The first three are those of htm_read's header.
 * Returns: 0; or minus the first of: the refusal of the file; HTM_SPACE where contents_length is
 * under HTM_CONTENTS_LENGTH. */
int64_t htm_header(const uint8_t *file, size_t file_bytes, uint64_t *contents,
                   size_t contents_length);

/* Makes a plain region file.
 * Arguments: the depth, 1 to HTM_MAX_DEPTH; the budget, 0 to HTM_MAX_BUDGET; the rows as htm_read
 * gives them, five numbers each, rows_length numbers in all. The convex of the first row is 0, that
 * of each next row the same or one more.
 * Writes: the file, from file[0] on.
 * Returns: the length of the file, 36 to HTM_FILE_BYTES; or minus the first of: HTM_DEPTH;
 * HTM_BUDGET; HTM_ORDER where there are no rows or no whole fives; row by row HTM_ORDER, HTM_CROWD,
 * HTM_VECTOR, HTM_OFFSET; HTM_SPACE where the file is longer than file_bytes. */
int64_t htm_write(uint32_t depth, uint32_t budget, const int32_t *rows, size_t rows_length,
                  uint8_t *file, size_t file_bytes);

/* Makes a grouped region file. Arguments and checks are those of htm_write.
 * Returns: the length of the file, 32 to 8460; or -N as htm_write does. */
int64_t htm_write_grouped(uint32_t depth, uint32_t budget, const int32_t *rows, size_t rows_length,
                          uint8_t *file, size_t file_bytes);

/* Converts a region file to the grouped or to the plain style. A file that is converted and
 * converted back is the first one byte for byte.
 * Arguments: the file, in either style.
 * Writes: the file in the wanted style, from out[0] on: itself where it is in that style already,
 * else written anew with its depth and budget as written.
 * Returns: the length of what is written; or minus the first of: the refusal of the file; HTM_SPACE
 * where that length is more than out_bytes. HTM_FILE_BYTES are always enough. */
int64_t htm_to_grouped(const uint8_t *file, size_t file_bytes, uint8_t *out, size_t out_bytes);
int64_t htm_to_plain(const uint8_t *file, size_t file_bytes, uint8_t *out, size_t out_bytes);

/* Tests whether the region of a region file holds a pointing.
 * Arguments: the file; the pointing (x, y, z).
 * Returns: 1 where it is held, 0 where it is not; or minus the first of: the refusal of the file;
 * HTM_VECTOR where (x, y, z) is no pointing. */
int64_t htm_holds(const uint8_t *file, size_t file_bytes, int32_t x, int32_t y, int32_t z);

/* Covers the region of a region file by two lists of ranges of identifiers, at the depth of the
 * file's header. For a pointing whose identifier by lookup at that depth is in an inner range, the
 * region holds it; in no outer range, it does not; in an outer range only, htm_holds decides.
 * Arguments: the file. Its budget is that of the header, and 0 there counts as HTM_DEFAULT_BUDGET.
 * Writes: the outer list from ranges[0] on, the inner list from ranges[2 * budget] on. A range is a
 * pair low, high and includes both ends. Each list ascends and has at most budget ranges. counts[0]
 * is how many ranges the outer list has, counts[1] how many the inner list has, counts[2] how many
 * trixels were classified. counts[3] to counts[5] count identifiers at the depth: those below full
 * trixels, the partial trixels, and those in the gaps that the outer list was joined over to keep
 * to the budget. Their sum is how many identifiers the outer ranges contain. Elements of ranges
 * that belong to no range keep their values.
 * Returns: 0; or minus the first of: the refusal of the file; HTM_SPACE where ranges_length is
 * under 4 * budget or counts_length under HTM_COVER_COUNTS. */
int64_t htm_cover(const uint8_t *file, size_t file_bytes, uint64_t *ranges, size_t ranges_length,
                  uint64_t *counts, size_t counts_length);

/* An index has the exposures of two owners, 0 and 1, up to 1024 of each. An exposure is a number of
 * 32 bits without a sign and a pointing. Both owners may use the same number.
 * The index is a list of the caller's, of at least HTM_INDEX_LENGTH elements. A list of zeros is an
 * empty index, and htm_index_begin makes any list one. index[0] is the count of the exposures. Then
 * they stand, six numbers each: identifier at depth 12, number, owner, x, y, z; ordered by
 * identifier, then by number, then by owner.
 * Write to the list by htm_index_begin, htm_add and htm_remove only. From an empty index on it then
 * has exactly the exposures that their owners added and did not remove since, each once. What
 * htm_add and htm_remove return, and what htm_frames and htm_trial return and write, for an owner,
 * does not depend on the other owner's calls. htm_index_count and htm_index_entry are of both
 * owners.
 * On any other list, such as one of five numbers an exposure, a call still returns, and neither
 * reads nor writes outside the list, but its answer means nothing. */

/* Makes a list an empty index, whatever it holds.
 * Arguments: the list.
 * Writes: index[0], which is 0 then.
 * Returns: 0; or -HTM_SPACE where index_length is under HTM_INDEX_LENGTH. */
int64_t htm_index_begin(int64_t *index, size_t index_length);

/* Adds an exposure for an owner.
 * Arguments: the index; the owner, 0 or 1; the number; the pointing (x, y, z).
 * Writes: index[0] and the entries behind it, now with the exposure.
 * Returns: 0; or minus the first of: HTM_OWNER; HTM_VECTOR where (x, y, z) is no pointing;
 * HTM_SPACE where index_length is under HTM_INDEX_LENGTH; HTM_TWICE where the number is one of the
 * owner's; HTM_FULL where 1024 exposures are the owner's. */
int64_t htm_add(int64_t *index, size_t index_length, uint32_t owner, uint32_t number, int32_t x,
                int32_t y, int32_t z);

/* Removes an exposure of an owner, who may then add another.
 * Arguments: the index; the owner, 0 or 1; the number.
 * Writes: index[0] and the entries behind it, now without the exposure.
 * Returns: 0; or minus the first of: HTM_OWNER; HTM_SPACE where index_length is under
 * HTM_INDEX_LENGTH; HTM_ABSENT where the number is not one of the owner's. */
int64_t htm_remove(int64_t *index, size_t index_length, uint32_t owner, uint32_t number);

/* Counts the exposures in an index, of both owners.
 * Arguments: the index.
 * Returns: the count, 0 to 2048; or -HTM_SPACE where index_length is under HTM_INDEX_LENGTH. */
int64_t htm_index_count(const int64_t *index, size_t index_length);

/* Gives one entry of an index.
 * Arguments: the index; the place of the entry, from 0 on.
 * Writes: entry[0] to entry[5], where there is an entry: identifier, number, owner, x, y, z.
 * Returns: 1; 0 where the place is not below the count, so that there is no entry, and then entry
 * may have any length; or -HTM_SPACE where index_length is under HTM_INDEX_LENGTH, or there is an
 * entry and entry_length is under HTM_ENTRY_LENGTH. */
int64_t htm_index_entry(const int64_t *index, size_t index_length, uint32_t place, int64_t *entry,
                        size_t entry_length);

/* Finds the exposures of an owner that the region of a region file holds. With its identifier
 * shortened to the file's depth, an exposure in an inner range is delivered unchecked, one that is
 * only in an outer range goes through the point test, and any other is skipped.
 * Arguments: the index; the owner, 0 or 1; the file, with its budget as in htm_cover.
 * Writes: the numbers of the exposures that are held, from numbers[0] on, in the order of the
 * index; ranges, as htm_cover does; counts[0], how many numbers there are, at most 1024; counts[1],
 * how many tests were made, which is how many of the owner's exposures are in outer ranges and in
 * no inner one.
 * Returns: 0; or minus the first of: HTM_OWNER; the refusal of the file; HTM_SPACE where
 * ranges_length is under 4 * budget, numbers_length under HTM_NUMBERS_LENGTH, index_length under
 * HTM_INDEX_LENGTH or counts_length under HTM_FRAME_COUNTS. */
int64_t htm_frames(const int64_t *index, size_t index_length, uint32_t owner, const uint8_t *file,
                   size_t file_bytes, uint64_t *ranges, size_t ranges_length, uint32_t *numbers,
                   size_t numbers_length, uint64_t *counts, size_t counts_length);

/* Tries the region of a region file under two settings, on the exposures of an owner. A setting is
 * a depth and a budget, which stand in for those of the file's header.
 * Arguments: the index; the owner, 0 or 1; the file; depth_1 and budget_1, the first setting;
 * depth_2 and budget_2, the second. A depth is 1 to HTM_MAX_DEPTH, a budget 0 to HTM_MAX_BUDGET,
 * and 0 counts as HTM_DEFAULT_BUDGET.
 * Writes: first and second, as htm_cover writes ranges under the first setting and under the
 * second: the outer list from element 0 on, the inner list from element 2 * budget on. counts[0] to
 * counts[4] are the result of the first setting: how many of the owner's exposures htm_frames would
 * deliver unchecked, test and hold, and test and discard, and how many ranges the outer and the
 * inner list have. counts[5] to counts[9] are that of the second setting. Unchecked plus held is
 * the same under both: the exposures that the region holds. counts[10] is the choice, 1 or 2: the
 * setting whose outer list spans the smaller share of the sky, counted in identifiers of depth 12,
 * and 1 where they are equal.
 * Returns: 0; or minus the first of: HTM_OWNER; the refusal of the file; HTM_DEPTH, then HTM_BUDGET
 * of the first setting; HTM_DEPTH, then HTM_BUDGET of the second; HTM_SPACE where first_length or
 * second_length is under 4 * budget of its setting, index_length under HTM_INDEX_LENGTH or
 * counts_length under HTM_TRIAL_COUNTS. */
int64_t htm_trial(const int64_t *index, size_t index_length, uint32_t owner, const uint8_t *file,
                  size_t file_bytes, uint32_t depth_1, uint32_t budget_1, uint32_t depth_2,
                  uint32_t budget_2, uint64_t *first, size_t first_length, uint64_t *second,
                  size_t second_length, uint64_t *counts, size_t counts_length);

/* Says where the outer list of the chosen setting is. It is a part of first or of second, itself
 * and not a copy, and is there for as long as that list keeps these elements.
 * Arguments: what htm_trial returned, as status; counts, first and second as htm_trial left them.
 * Writes: part[0], which list it is: 1 for first, 2 for second; part[1], how many elements of that
 * list, from element 0 on, are the part, pairs low, high. Both are 0 after a refused htm_trial,
 * that is with any status but 0, whatever an earlier trial left in the lists. part[1] is 0 too, and
 * the part empty, where the chosen list is shorter than the outer list of the result.
 * Returns: 0; or -HTM_SPACE where counts_length is under HTM_TRIAL_COUNTS or part_length under
 * HTM_PART_LENGTH. */
int64_t htm_chosen(int64_t status, const uint64_t *counts, size_t counts_length,
                   const uint64_t *first, size_t first_length, const uint64_t *second,
                   size_t second_length, uint64_t *part, size_t part_length);

#ifdef __cplusplus
}
#endif

#endif
