#!/usr/bin/env python3
"""Tests of tables.py and retarget.py on small modules."""
import unittest

from llvm import Refused
from retarget import heads_of, retargeted
from tables import in_read_only_memory

HEADS = 'target datalayout = "e-p:32:32"\ntarget triple = "board"\n'
X86 = ('target datalayout = "e-p:64:64"\ntarget triple = "x86_64-unknown-linux-gnu"\n\n%s\n'
       'attributes #0 = { nounwind "probe-stack"="inline-asm" "stack-probe-size"="3072" "target-cpu"="x86-64-v2" }\n')
ZEROS = "  call void @llvm.memset.p0.i64(ptr %%r0, i8 0, i64 %d, i1 false)"


def function(size, stores, then=(), before=(), align=4, name="f"):
    """A function that fills an array of this size: stores are (offset, bits, value)."""
    lines = [f"define internal void @{name}(ptr %a0) #0 {{", "start:", f"  %r0 = alloca [{size} x i8], align {align}", *before]
    for i, (offset, bits, value) in enumerate(stores, 1):
        address = "%r0"
        if offset:
            address = f"%r{i}"
            lines.append(f"  {address} = getelementptr i8, ptr %r0, i64 {offset}")
        lines.append(f"  store i{bits} {value}, ptr {address}, align 1")
    return "\n".join([*lines, *then, "  ret void", "}"])


def filling(*what, **more):
    """A module with one such function."""
    return X86 % function(*what, **more)


def words(count, first=0):
    return [(4 * i, 32, 1000 + i) for i in range(first, count)]


class Tables(unittest.TestCase):
    def taken(self, text, copies, constants):
        out, said = in_read_only_memory(text)
        self.assertEqual(out.count("call void @llvm.memcpy"), copies)
        self.assertEqual(out.count("private unnamed_addr constant"), constants)
        self.assertIn(f"{copies} runs", said)
        return out

    def stays(self, text):
        self.assertEqual(self.taken(text, 0, 0).replace("\n", ""), text.replace("\n", ""))

    def refused(self, text, why):
        with self.assertRaisesRegex(Refused, why):
            in_read_only_memory(text)

    def test_a_run_that_covers_the_array_is_taken_with_its_bytes(self):
        out = self.taken(filling(16, [(0, 32, 1), (4, 16, -2), (6, 8, 255), (7, 8, -128), (8, 64, 0x0102030405060708)]), 1, 1)
        self.assertIn('[16 x i8] c"\\01\\00\\00\\00\\FE\\FF\\FF\\80\\08\\07\\06\\05\\04\\03\\02\\01", align 4', out)
        self.assertIn("(ptr align 4 %r0, ptr align 4 @table.0, i64 16, i1 false)", out)
        self.assertNotIn("store", out)
        self.assertIn("  ret void", out)

    def test_what_comes_before_and_behind_stays_in_its_place(self):
        out = self.taken(filling(64, words(16), before=["  store i8 1, ptr %a0, align 1"], then=["  call void @g(ptr %r0)"]), 1, 1)
        places = [out.index(line) for line in ("store i8 1, ptr %a0", "call void @llvm.memcpy", "call void @g(ptr %r0)")]
        self.assertEqual(places, sorted(places))

    def test_two_arrays_of_the_same_bytes_share_a_constant(self):
        out = self.taken(X86 % (function(64, words(16), align=1) + "\n\n" + function(64, words(16), align=8, name="g")), 2, 1)
        self.assertRegex(out, r"constant \[64 x i8\] .*, align 8")

    def test_a_small_array_stays(self):
        self.stays(filling(12, words(3)))

    def test_one_store_stays(self):
        self.stays(filling(64, words(1)))

    def test_a_small_array_with_a_gap_stays(self):
        self.stays(filling(32, words(4) + words(8, 5)))

    def test_a_gap_is_refused(self):
        self.refused(filling(64, words(4) + words(16, 5)), "ends after 16")

    def test_a_run_that_ends_early_is_refused(self):
        self.refused(filling(64, words(15)), "ends after 60")

    def test_an_overlap_is_refused(self):
        self.refused(filling(64, words(4) + [(14, 32, 7)] + words(16, 4)), "ends after 16")

    def test_a_run_past_the_end_is_refused(self):
        self.refused(filling(66, words(16) + [(64, 32, 7)]), "ends after 6")

    def test_a_store_that_is_no_constant_is_refused(self):
        self.refused(filling(64, words(4) + [(16, 32, "%a1")] + words(16, 5)), "ends after 16")

    def test_a_store_of_another_kind_is_refused(self):
        self.refused(filling(64, words(16)).replace("store i32 1004", "store volatile i32 1004"), "ends after 16")

    def test_another_order_stays(self):
        self.stays(filling(64, list(reversed(words(16)))))

    def test_a_use_before_the_run_stays(self):
        self.stays(filling(64, words(16), before=["  call void @g(ptr %r0)"]))

    def test_zeros_of_the_whole_array_before_the_run_are_no_use(self):
        self.taken(filling(64, words(16), before=[ZEROS % 64, ZEROS % 64]), 1, 1)

    def test_zeros_of_a_part_before_the_run_are_a_use(self):
        self.stays(filling(64, words(16), before=[ZEROS % 60]))

    def test_zeros_do_not_hide_a_run_that_ends_early(self):
        self.refused(filling(64, words(15), before=[ZEROS % 64]), "ends after 60")

    def test_zeros_in_between_are_refused(self):
        self.refused(filling(64, words(16)).replace("  store i32 1004", ZEROS % 64 + "\n  store i32 1004"), "ends after 16")

    def test_the_constants_of_the_kit_stay_and_are_counted(self):
        own = '@static.0 = private unnamed_addr constant [4 x i8] c"\\03\\00\\00\\00", align 4'
        out, said = in_read_only_memory(filling(64, words(16)).replace("\n\n", f"\n\n{own}\n\n", 1))
        self.assertIn(own, out)
        self.assertIn("1 runs of constant stores taken, 1 constants, 64 bytes; 1 constants of the kit's own", said)

    def test_a_use_in_between_is_refused(self):
        text = filling(64, words(16)).replace("  store i32 1004", "  call void @g(ptr %r0)\n  store i32 1004")
        self.refused(text, "ends after 16")

    def test_an_address_that_is_used_again_is_refused(self):
        self.refused(filling(64, words(16), then=["  call void @g(ptr %r3)"]), "used again")

    def test_an_array_that_is_not_of_bytes_stays(self):
        self.stays(filling(64, words(16)).replace("[64 x i8]", "[16 x i32]"))


ANSWERING = """define { i64, i64 } @chaffrail_f(i8 noundef %a0, ptr noundef %a1, i64 noundef %a2, ptr noundef byval([40 x i8]) align 4 %a3) #0 {
start:
  %r0 = alloca [16 x i8], align 4
  %r1 = alloca [16 x i8], align 8
  %r2 = icmp eq ptr %a1, null
  %r3 = zext i1 %r2 to i64
  %r4 = mul i64 %r3, 4096
  %r5 = getelementptr i8, ptr %a1, i64 %r4
  store ptr %r5, ptr %r1, align 8
  %r6 = getelementptr i8, ptr %r1, i64 8
  store i64 %a2, ptr %r6, align 8
  %r7 = load ptr, ptr %r1, align 1
  %r8 = getelementptr i8, ptr %r1, i64 8
  %r9 = load i64, ptr %r8, align 1
  call void @"chaffrail::chaffrail_f"(ptr %r0, i8 %a0, ptr %r7, i64 %r9, ptr %a3)
  %r10 = load { i64, i64 }, ptr %r0, align 4
  ret { i64, i64 } %r10
}"""
INNER = """define internal i64 @"row::f"(i64 noundef %a0) #0 {
start:
  ret i64 %a0
}"""


class Retarget(unittest.TestCase):
    def turned(self, functions):
        return retargeted(X86 % functions, heads_of(HEADS))

    def refused(self, functions, why):
        with self.assertRaisesRegex(Refused, why):
            self.turned(functions)

    def test_an_answer_goes_where_the_caller_says_and_a_length_is_widened(self):
        out = self.turned(ANSWERING)
        self.assertIn("define void @chaffrail_f(ptr noundef sret([16 x i8]) align 4 %answer, i8 noundef %a0, ptr noundef %a1, i32 noundef %len2, "
                      "ptr noundef byval([40 x i8]) align 4 %a3) #0 {", out)
        self.assertIn("  %a2 = zext i32 %len2 to i64\n  store i64 %a2, ptr %r6, align 8\n", out)
        self.assertIn("  store { i64, i64 } %r10, ptr %answer, align 4\n  ret void\n}", out)

    def test_nothing_of_x86_64_is_left(self):
        out = self.turned(ANSWERING + "\n" + INNER)
        self.assertNotIn("x86", out)
        self.assertIn('target datalayout = "e-p:32:32"\ntarget triple = "board"', out)
        self.assertIn("attributes #0 = { nounwind }", out)
        self.assertIn(INNER, out)

    def test_a_pointer_handed_in_and_back_stays(self):
        given = 'define noundef ptr @chaffrail_t(ptr noundef %a0) #0 {\nstart:\n  call void @"chaffrail::chaffrail_t"(ptr %a0)\n  ret ptr %a0\n}'
        self.assertIn(given, self.turned(given))

    def test_another_answer_is_refused(self):
        self.refused(ANSWERING.replace("{ i64, i64 }", "{ i64, i32 }"), "a form that isn't known")

    def test_another_parameter_is_refused(self):
        self.refused(ANSWERING.replace("i8 noundef %a0", "double noundef %a0"), "a parameter that isn't known")

    def test_a_timing_of_another_size_is_refused(self):
        self.refused(ANSWERING.replace("[40 x i8]", "[44 x i8]"), "a parameter that isn't known")

    def test_a_number_of_64_bits_is_refused(self):
        self.refused(ANSWERING.replace("i8 noundef %a0", "i64 noundef %a0").replace("i8 %a0", "i64 %a0"), "isn't known")

    def test_a_length_that_no_slice_takes_is_refused(self):
        self.refused(ANSWERING.replace("  store i64 %a2, ptr %r6, align 8\n", ""), "isn't a slice's length")

    def test_another_place_in_the_place_of_null_is_refused(self):
        self.refused(ANSWERING.replace("i64 %r3, 4096", "i64 %r3, 8192"), "a line that isn't known")

    def test_another_line_is_refused(self):
        self.refused(ANSWERING.replace("start:", "start:\n  fence seq_cst"), "a line that isn't known")

    def inner(self, line):
        """An inner function of this line, turned: what stands between its first line and its last."""
        out = self.turned(INNER.replace("  ret i64", line + "\n  ret i64"))
        return out[out.index("start:\n") + 7:out.index("  ret i64")]

    def test_a_pointer_behind_a_byte_is_loaded_where_64_bits_have_it(self):
        self.assertEqual(self.inner("  %r1 = load { i8, ptr }, ptr %r0, align 8"),
                         "  %r1.part0 = load i8, ptr %r0, align 8\n"
                         "  %r1.first1 = insertvalue { i8, ptr } poison, i8 %r1.part0, 0\n"
                         "  %r1.place1 = getelementptr i8, ptr %r0, i64 8\n"
                         "  %r1.part1 = load ptr, ptr %r1.place1, align 8\n"
                         "  %r1 = insertvalue { i8, ptr } %r1.first1, ptr %r1.part1, 1\n")

    def test_and_stored_there(self):
        self.assertEqual(self.inner("  store { i32, ptr } %r1, ptr %r0, align 4"),
                         "  %r1.part0 = extractvalue { i32, ptr } %r1, 0\n"
                         "  store i32 %r1.part0, ptr %r0, align 4\n"
                         "  %r1.place1 = getelementptr i8, ptr %r0, i64 8\n"
                         "  %r1.part1 = extractvalue { i32, ptr } %r1, 1\n"
                         "  store ptr %r1.part1, ptr %r1.place1, align 4\n")

    def test_what_lies_behind_a_pointer_is_loaded_where_64_bits_have_it(self):
        out = self.inner("  %r1 = load { ptr, ptr, i8 }, ptr %r0, align 8")
        self.assertEqual(out.count("i64 8\n"), 1)
        self.assertEqual(out.count("i64 16\n"), 1)

    def test_a_slice_lies_alike_and_stays(self):
        for line in ("  %r1 = load { ptr, i64 }, ptr %r0, align 8", "  %r1 = load { i64, i64 }, ptr %r0, align 8", "  store { ptr, i64 } %r1, ptr %r0, align 8"):
            self.assertEqual(self.inner(line), line + "\n")

    def test_a_value_has_no_layout_and_stays(self):
        for line in ("  %r2 = extractvalue { i8, ptr } %r1, 1", "  %r1 = call { i8, ptr } @f(ptr %r0)"):
            self.assertEqual(self.inner(line), line + "\n")

    def test_an_address_as_a_number_is_refused(self):
        self.refused(INNER.replace("  ret i64", "  %r1 = ptrtoaddr ptr %r0 to i64\n  ret i64"), "an address that is taken for a number")

    def test_room_for_such_an_aggregate_is_refused(self):
        self.refused(INNER.replace("  ret i64", "  %r1 = alloca { i8, ptr }, align 8\n  ret i64"), "in a line that isn't known")

    def test_an_aggregate_within_another_is_refused(self):
        self.refused(INNER.replace("  ret i64", "  %r1 = load { float, ptr }, ptr %r0, align 8\n  ret i64"), "a part that isn't known")

    def test_a_constant_with_a_pointer_is_refused(self):
        self.refused(INNER + "\n@static.0 = private unnamed_addr constant { ptr, i64 } { ptr @f, i64 1 }, align 8", "a constant with a pointer")

    def test_a_name_of_x86_64_that_is_left_is_refused(self):
        self.refused(INNER + '\n!0 = !{!"x86"}', "still named")


if __name__ == "__main__":
    unittest.main()
