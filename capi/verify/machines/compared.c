/* Calls that keep nothing, or a few numbers: their answers are written as tables, or compared with those that are given in the model of the system. */
#include "explore.h"
#include "given.h"
#include "served.h"

#include <stdbool.h>
#include <stdio.h>

/* ---- tables of all that may be asked */

static void print_making(void)
{
    printf("static const uint8_t making[MAKING_KNOWN][MAKING_ASKS][3] = {");
    for (uint32_t i = 0; i < MAKING_KNOWN; i++) {
        printf("%s{", i > 0 ? ", " : "");
        for (uint32_t ask = 0; ask < MAKING_ASKS; ask++) {
            printf("%s{", ask > 0 ? ", " : "");
            for (uint32_t found = 0; found < 3; found++)
                printf("%s%u", found > 0 ? ", " : "", dconfdb_making_after((i & 4) != 0, (i & 2) != 0, (i & 1) != 0, ask, found));
            printf("}");
        }
        printf("}");
    }
    printf("};\n\n");
}

static void print_endings(void)
{
    printf("static const DconfdbEnding endings[ENDINGS] = {");
    for (uint32_t i = 0; i < ENDINGS; i++) {
        uint32_t outcome, fault;
        bool is_unsettled;
        DconfdbEnding ending = {0};
        ending_asked(i, &outcome, &fault, &is_unsettled);
        dconfdb_ending(outcome, fault, is_unsettled, true, &ending);
        if (ending.keeps_fault != (ending.newest == DCONFDB_NEWEST_NEWER))
            fail("ending", "another fate of a fault than is given");
        dconfdb_ending(outcome, fault, is_unsettled, false, &ending);
        if (ending.keeps_fault)
            fail("ending", "another fate of a fault than is given");
        printf("%s{%u, %u, %u, %d, %d, false}", i > 0 ? ", " : "", ending.newest, ending.told, ending.outcome, ending.is_unsettled, ending.is_there);
    }
    printf("};\n");
}

static void print_fault_answers(void)
{
    printf("\nstatic const uint8_t fault_answers[CALLS][FAULTS] = {");
    for (uint32_t call = 0; call < CALLS; call++) {
        printf("%s{", call > 0 ? ", " : "");
        for (uint32_t fault = 0; fault < FAULTS; fault++) {
            DconfdbRenamed renamed, given;
            uint32_t answer = dconfdb_fault_answer(call, fault, &renamed);
            given = renamed_given(call, fault, answer);
            bool is_of_names = call >= DCONFDB_CALL_SET_ASIDE;
            if (is_of_names && (renamed.fault != given.fault || renamed.is_nameless != given.is_nameless || renamed.is_aside != given.is_aside || renamed.goes != given.goes))
                fail("fault_answer", "another fate of a name than is given");
            printf("%s%u", fault > 0 ? ", " : "", answer);
        }
        printf("}");
    }
    printf("};\n");
}

void print_answers(void)
{
    print_making();
    print_endings();
    print_fault_answers();
}

/* ---- compared */

/* By each step that was done, with and without a fault. */
static void compare_handing_of(const DconfdbMadeFile *file)
{
    for (uint32_t i = 0; i < 2U * 3 * (DCONFDB_HANDING_BITS + 1); i++) {
        uint32_t what = i / 2 % 3, done = i / 6, fault = i % 2 * 5, number = 0, wanted = 0;
        if (dconfdb_handing_after(what, done, fault, file, &number) != handing_given(what, done, fault, file, &wanted) || number != wanted)
            fail("handing_after", "another step, or other bits, than are given");
    }
}

/* Of all bits, and of users and groups that are one or another. */
static void compare_handing(void)
{
    for (uint32_t i = 0; i < 512; i++) {
        compare_handing_of(&(DconfdbMadeFile){.wanted = {1, 1, i}, .made = {1, 1, 0600}, .above = 1});
        compare_handing_of(&(DconfdbMadeFile){.wanted = {1, 1, 0640}, .made = {1, 1, i}, .above = 1});
        compare_handing_of(&(DconfdbMadeFile){.wanted = {1, 1, 0644}, .made = {i % 2, i / 2 % 2, i / 4 % 2 * 0644}, .above = i / 8 % 2, .gives_group = (i & 16) != 0,
                                              .is_root = (i & 32) != 0, .is_beside = (i & 64) != 0, .is_empty = (i & 128) != 0});
        compare_handing_of(&(DconfdbMadeFile){.wanted = {1, 1, i}, .made = {1, 0, 0600}, .above = 0});
    }
}

static void compare_taking_of(DconfdbTaking taking, const DconfdbStood *stood)
{
    DconfdbTaking given = taking;
    dconfdb_taking_answered(&taking, stood);
    taking_given(&given, stood);
    if (taking.task != given.task || taking.tried != given.tried || taking.fault != given.fault || taking.openings != given.openings
        || taking.forks != given.forks || taking.has_made != given.has_made || taking.is_again != given.is_again)
        fail("taking_answered", "another task than is given");
}

/* In each task, by each errno, and of what may be found. */
static void compare_taking(void)
{
    static const uint32_t counts[] = {0, 1, 8, 9, 98, 99}, modes[] = {0100600, 0040600, 0100660, 0100602};
    for (uint32_t i = 0; i < 18U * 6 * 6 * 4; i++) {
        DconfdbTaking taking = {.task = i % 18, .openings = counts[i / 18 % 6], .forks = counts[i / 108 % 6], .has_made = (i / 648 & 1) != 0,
                                .is_again = (i / 648 & 2) != 0};
        for (uint32_t fault = 0; fault < 2 * FAULTS; fault++)
            compare_taking_of(taking, &(DconfdbStood){.fault = fault / 2, .mode = 0100600, .links = 1, .is_named = true, .may_make = (fault & 1) != 0});
        for (uint32_t k = 0; k < 256; k++)
            compare_taking_of(taking, &(DconfdbStood){.mode = modes[k % 4], .user = k / 4 % 2, .links = 1 + k / 8 % 2, .is_named = (k & 16) != 0, .is_root = (k & 32) != 0,
                                                      .may_make = (k & 64) != 0, .is_moved = (k & 128) != 0});
    }
}

static void compare_standing(const DconfdbStood *stood)
{
    for (uint32_t purpose = 0; purpose <= DCONFDB_TO_SYNC_NAME; purpose++) {
        uint32_t told, wanted;
        if (dconfdb_standing(purpose, stood, &told) != standing_given(purpose, stood, &wanted) || told != wanted)
            fail("standing", "another answer than is given");
    }
}

/* By each errno; and of files of each kind, with all bits of the group and of others. */
static void compare_standings(void)
{
    static const uint64_t sizes[] = {0, 1, 65536, 65537};
    static const uint64_t tries[] = {0, 1, 39, 40, 98, 99, 997, 998};
    for (uint32_t fault = 0; fault < FAULTS; fault++) {
        for (uint32_t i = 0; i < 128; i++)
            compare_standing(&(DconfdbStood){.fault = fault, .mode = 0100600, .links = 1, .tried = tries[i % 8], .is_named = (i & 8) != 0, .is_root = (i & 16) != 0,
                                             .may_make = (i & 32) != 0, .is_moved = (i & 64) != 0});
    }
    for (uint32_t mode = 0; mode < 65536; mode++)
        compare_standing(&(DconfdbStood){.mode = mode, .size = 1, .most = 1, .links = mode % 3, .user = mode / 8192, .is_root = true});
    for (uint32_t i = 0; i < 128; i++)
        compare_standing(&(DconfdbStood){.mode = 0100600, .size = sizes[i % 4], .most = sizes[i / 4 % 4], .may_map = (i & 16) != 0,
                                         .may_stop = (i & 32) != 0, .is_named = (i & 64) != 0, .links = i % 3});
}

static void compare_moved(void)
{
    for (uint32_t i = 0; i < 4 * 4 * 4 * 3; i++) {
        size_t wanted = i % 4, at = i / 4 % 4, before = at, count = i / 16 % 4;
        uint32_t fault = i / 64 * 4 + i / 128;
        if (dconfdb_moved(wanted, &at, fault, count) != moved_given(wanted, &before, fault, count) || at != before)
            fail("moved", "another fate of bytes than is given");
        if (dconfdb_is_cut(wanted, count) != (wanted > count))
            fail("is_cut", "another end than is given");
    }
}

static void compare_settling(void)
{
    for (uint32_t bits = 0; bits < 128; bits++) {
        for (uint32_t task = DCONFDB_SETTLING_BEGINS; task < DCONFDB_SETTLING_KNOWN; task++) {
            const DconfdbSettling known = {bits & 64 ? 0 : 13, bits & 1, bits & 2, bits & 4, bits & 8, bits & 16};
            if (dconfdb_settling_after(task, bits & 32, &known) != settling_given(task, bits & 32, &known))
                fail("settling_after", "another task than is given");
        }
    }
}

static void compare_brought(void)
{
    for (uint32_t i = 0; i < 3 * 2 * 2 * (DCONFDB_BRING_OVER + 1); i++) {
        if (dconfdb_bring_after(i % 3, i / 12, i / 3 % 2 * 5, i / 6 % 2) != bring_given(i % 3, i / 12, i / 3 % 2 * 5, i / 6 % 2))
            fail("bring_after", "another task than is given");
    }
    for (uint32_t i = 0; i < 4; i++) {
        if (dconfdb_handed(i & 1, i & 2) != handed_given(i & 1, i & 2))
            fail("handed", "another fate than is given");
    }
    for (uint32_t code = 0; code < 2 * FAULTS; code++) {
        if (dconfdb_is_list_refused(code) != is_list_refused_given(code))
            fail("is_list_refused", "another answer than is given");
    }
}

static void compare_flags(void)
{
    for (uint32_t i = 0; i < 4 * (DCONFDB_FLAG_OVER + 1); i++) {
        if (dconfdb_flag_after(i / 4, i & 1, i & 2) != flag_given(i / 4, i & 1, i & 2))
            fail("flag_after", "another task than is given");
    }
}

static void compare_served_of(DconfdbServed known)
{
    for (uint32_t done = DCONFDB_SERVED_CAME; done <= DCONFDB_SERVED_TELLS; done++) {
        if (dconfdb_served_after(done, &known) != served_given(done, &known))
            fail("served_after", "another fate than is given");
    }
}

static void compare_folders(void)
{
    for (uint32_t i = 0; i < 4; i++) {
        if (dconfdb_served_folder(i & 1, i & 2) != folder_given(i & 1, i & 2))
            fail("served_folder", "another folder than is given");
    }
}

/* By each bit that is known; and at each bound, and beyond it. */
static void compare_served(void)
{
    static const uint64_t sizes[] = {0, 4096, 4097, 32768, 32769, 16777216, 16777217, 67108864, 67108865};
    for (uint32_t bits = 0; bits < 4U * 4096; bits++) {
        DconfdbServed known = {.said = bits / 4096, .is_used = bits & 1, .is_normal = bits & 2, .has_edits = bits & 4, .is_written = bits & 8,
                               .is_closed = bits & 16, .ends = bits & 32, .is_amid = bits & 64, .is_same = bits & 128, .is_open = bits & 256,
                               .is_profile_open = bits & 512, .has_same_file = bits & 1024, .had_name = bits & 2048, .is_bus_closed = bits & 1, .kind = bits / 4096, .is_short = bits & 1,
                               .sets = bits & 2, .is_again = bits & 4, .is_covered = bits & 8, .is_users = bits & 16, .is_unmade = bits & 32, .is_service_db = bits & 64,
                               .is_behind = bits & 2, .has_profile = bits & 8, .is_first = bits & 4, .is_turned = bits & 1, .wants_none = bits & 1,
                               .is_noted = bits & 4};
        for (uint32_t i = 0; i < 9 * 8; i++) {
            known.size = sizes[i / 8];
            known.edits = i & 1 ? 16 : i & 2 ? 17 : 0;
            known.resets = i & 4 ? 1 : 0;
            known.waiting = i & 1 ? 9999 : i & 2 ? 10000 : 0;
            known.waiting_size = i & 2 ? 268435455 : i & 4 ? 268435456 : 0;
            known.names = i & 4 ? 63 : 64;
            known.answered = i & 4 ? 9999 : 0;
            compare_served_of(known);
        }
    }
}

/* Of a thread that watches nothing, and is in no line. */
static void compare_rounds(void)
{
    for (uint32_t i = 0; i < 9U * 8 * (DCONFDB_ROUND_LEAVE + 1); i++) {
        const DconfdbRound known = {.again = i % 3, .moment = i / 3 % 3, .ends = i / 9 & 1, .waits = i / 9 & 2, .has_asked = i / 9 & 4, .is_watched = true};
        if (dconfdb_round_after(i / 72, &known) != round_given(i / 72, &known))
            fail("round_after", "another task than is given");
    }
}

/* Of files that differ in each of what tells them apart, and in what doesn't. */
static void compare_files(void)
{
    for (uint32_t i = 0; i < 256; i++) {
        const DconfdbFileStamp one = {.device = 1, .inode = 1, .size = 1, .is_there = i & 1};
        const DconfdbFileStamp other = {.device = i >> 1 & 1, .inode = i >> 2 & 1, .size = i >> 3 & 1, .touched = {i >> 4 & 1, i >> 5 & 1}, .is_there = i & 64};
        DconfdbFileStamp made = one, given = one;
        dconfdb_placed(&other, &made);
        placed_given(&other, &given);
        if (dconfdb_is_one_file(&one, &other) != is_one_file_given(&one, &other) || made.size != given.size || made.touched.seconds != given.touched.seconds)
            fail("placed", "another file than is given");
    }
}

static void compare_looks(void)
{
    for (uint32_t i = 0; i < 128; i++) {
        const DconfdbLookKnown known = {.until = i & 1, .is_open = i & 2, .is_watched = i & 4, .is_whole = i & 8, .is_told = i & 16, .is_own = i & 32, .is_busy = i & 64};
        if (dconfdb_look_due(DCONFDB_LOOKER_SEES, &known) != look_due_given(&known))
            fail("look_due", "another answer than is given");
    }
}

void compare_answers(void)
{
    compare_handing();
    compare_taking();
    compare_standings();
    compare_settling();
    compare_moved();
    compare_brought();
    compare_flags();
    compare_served();
    compare_folders();
    compare_rounds();
    compare_looks();
    compare_files();
}
