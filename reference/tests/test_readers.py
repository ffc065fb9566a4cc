"""Numbers and places of the readers' refusals, derived by hand."""
import random
import unittest
from collections import Counter

from reference import files, generate, naive
from reference.files import (
    JoinThrough, Member, Operator, Register, Sheet, Step,
    read_narrowed, read_question, read_register, read_sheet,
)
from reference.tests.support import refusal_of

READERS = {"sheet": read_sheet, "question": read_question,
           "register": read_register, "narrowed": read_narrowed}
HEADS = {"sheet": "11 0002 02 02", "question": "21 0001 01",
         "register": "31 0004 0000 0000", "narrowed": "41 0002 0000"}
STEP = "43 0002 00 00 "


class ReaderTest(unittest.TestCase):
    file = ""

    def refused(self, text: str, number: int, place: int):
        self.assertEqual(refusal_of(READERS[self.file], bytes.fromhex(text)), (number, place), text)

    def read(self, text: str):
        return READERS[self.file](bytes.fromhex(text))


class AnyFile(unittest.TestCase):
    """What the one field reader does for each of the four files."""

    def refused(self, file: str, text: str, number: int, place: int):
        self.assertEqual(refusal_of(READERS[file], bytes.fromhex(text)), (number, place),
                         (file, text))

    def test_table_of_the_specification(self):
        lengths = {tag: layout.length for tag, layout in files.TAGS.items()}
        self.assertEqual(lengths, {0x11: 2, 0x12: 3, 0x21: 1, 0x31: 4, 0x32: 1, 0x33: 5, 0x41: 2,
                                   0x42: 17, 0x43: 2, 0x44: 1, 0x45: 8})
        for tag, layout in files.TAGS.items():
            self.assertEqual(sum(layout.widths), layout.length, tag)

    def test_one_or_two_bytes_are_1_whatever_they_are(self):
        for file, head in HEADS.items():
            for text in (head[:2], head[:5], "ff", "ffff", "00"):
                self.refused(file, text, 1, 0)

    def test_tag_not_due_or_length_not_its_own(self):
        for file, head in HEADS.items():
            for text in ("ff" + head[2:], "12 0003 00 00 00", "43 0002 00 00",
                         head[:5] + "ff" + head[7:], head[:3] + "01" + head[5:]):
                self.refused(file, text, 2, 0)

    def test_heads_of_the_other_files_are_not_due(self):
        for file in HEADS:
            for other, head in HEADS.items():
                if other != file:
                    self.refused(file, head, 2, 0)

    def test_2_stands_before_1_for_the_body(self):
        for file, head in HEADS.items():
            self.refused(file, head[:5] + "ff", 2, 0)
            self.refused(file, "ff" + head[2:7], 2, 0)

    def test_body_past_the_end(self):
        for file, head in HEADS.items():
            whole = bytes.fromhex(head)
            for size in range(3, len(whole)):
                self.refused(file, whole[:size].hex(), 1, 0)

    def test_body_past_the_end_stands_before_range(self):
        self.refused("sheet", "11 0002 00", 1, 0)
        self.refused("register", "31 0004 ffff", 1, 0)
        self.refused("narrowed", "41 0002 ff", 1, 0)

    def test_refusals_name_their_file(self):
        for file, reader in READERS.items():
            with self.assertRaises(files.Refusal) as caught:
                reader(b"")
            self.assertEqual(caught.exception.file, file)


class SheetReader(ReaderTest):
    file = "sheet"
    head = "11 0002 03 02 "

    def test_read(self):
        self.assertEqual(self.read(self.head + "12 0003 00 01 02  12 0003 02 00 00"),
                         Sheet(3, 2, [(0, 1, 2), (2, 0, 0)]))

    def test_no_triples(self):
        self.assertEqual(self.read(self.head), Sheet(3, 2, []))

    def test_head_ranges(self):
        self.assertEqual(self.read("11 0002 01 01"), Sheet(1, 1, []))
        self.assertEqual(self.read("11 0002 40 40"), Sheet(64, 64, []))
        for numbers in ("00 01", "41 01", "01 00", "01 41", "ff ff"):
            self.refused("11 0002 " + numbers, 3, 0)

    def test_triple_ranges_are_those_of_the_head(self):
        for numbers in ("03 00 00", "00 02 00", "00 00 03"):
            self.refused(self.head + "12 0003 " + numbers, 3, 5)
        self.read(self.head + "12 0003 02 01 02")

    def test_place_is_the_byte_at_which_the_field_begins(self):
        self.refused(self.head + "12 0003 00 00 00 12 0003 00 00 03", 3, 11)
        self.refused(self.head + "12 0003 00 00 00 12 0003 00 00", 1, 11)
        self.refused(self.head + "12 0003 00 00 00 12 0002 00 00", 2, 11)
        self.refused(self.head + "12 0003 00 00 00 12 00", 1, 11)

    def test_triples_ascend_strictly_by_from_then_link_then_to(self):
        low = "12 0003 00 01 01 "
        for higher in ("01 00 00", "00 01 02"):
            self.read(self.head + low + "12 0003 " + higher)
        for other in ("00 01 01", "00 01 00", "00 00 02"):
            self.refused(self.head + low + "12 0003 " + other, 4, 11)

    def test_3_stands_before_4(self):
        self.refused(self.head + "12 0003 01 00 00 12 0003 00 02 00", 3, 11)

    def test_first_bad_field_from_the_left(self):
        self.refused(self.head + "12 0003 00 00 00 12 0003 00 00 00 12 0003 03 00 00", 4, 11)

    def test_a_second_head_is_not_due(self):
        self.refused(self.head + self.head, 2, 5)

    def test_stray_bytes_after_fewer_than_512_triples(self):
        self.refused(self.head + "12", 1, 5)
        self.refused(self.head + "12 00", 1, 5)
        self.refused(self.head + "ff ff ff", 2, 5)
        self.refused(self.head + "12 0003 00 00 00 00", 1, 11)

    def test_after_512_triples_any_byte_is_5(self):
        whole = files.sheet_bytes(generate.large_sheet(random.Random(1)))
        self.assertEqual(len(whole), 3077)
        self.assertEqual(len(read_sheet(whole).triples), 512)
        for stray in (b"\x12", b"\x12\x00", b"\xff\xff\xff", whole[-6:]):
            self.assertEqual(refusal_of(read_sheet, whole + stray), (5, 3077))
        self.assertEqual(refusal_of(read_sheet, whole[:-6] + b"\x12"), (1, 3071))


class QuestionReader(ReaderTest):
    file = "question"

    def test_read(self):
        self.assertEqual(self.read("21 0001 04" + STEP + "43 0002 01 3f 44 0001 81 44 0001 85"),
                         [Step(0, 0), Step(1, 63), Operator(129), Operator(133)])

    def test_number_of_symbols(self):
        self.refused("21 0001 00", 3, 0)
        self.refused("21 0001 21" + STEP, 3, 0)
        self.assertEqual(len(self.read("21 0001 20" + STEP + 31 * "44 0001 85")), 32)

    def test_symbol_ranges(self):
        for symbol in ("43 0002 02 00", "43 0002 ff 00", "43 0002 00 40", "43 0002 01 ff",
                       "44 0001 7f", "44 0001 86", "44 0001 00"):
            self.refused("21 0001 01" + symbol, 3, 4)

    def test_3_stands_before_6(self):
        self.refused("21 0001 01 44 0001 86", 3, 4)
        self.refused("21 0001 02" + STEP + "44 0001 7f", 3, 9)

    def test_join_through_is_not_due(self):
        self.refused("21 0001 03" + STEP + STEP + "45 0008 00 00 00 00 00 00 00 01", 2, 14)

    def test_other_tags_are_not_due(self):
        for field in ("42 0011" + 17 * "00", "21 0001 01", "12 0003 00 00 00"):
            self.refused("21 0001 01" + field, 2, 4)

    def test_every_operator_takes_its_operands(self):
        for number in range(128, 133):
            symbol = f"44 0001 {number:02x}"
            self.refused("21 0001 01" + symbol, 6, 4)
            self.refused("21 0001 02" + STEP + symbol, 6, 9)
            self.assertEqual(self.read("21 0001 03" + STEP + STEP + symbol)[-1], Operator(number))
        self.refused("21 0001 01 44 0001 85", 6, 4)
        self.assertEqual(self.read("21 0001 02" + STEP + "44 0001 85")[-1], Operator(133))

    def test_operator_lacks_an_operand_before_the_end(self):
        self.refused("21 0001 04" + STEP + "44 0001 80" + STEP + STEP, 6, 9)

    def test_several_paths_remain(self):
        self.refused("21 0001 02" + STEP + STEP, 6, 14)
        self.refused("21 0001 03" + 3 * STEP, 6, 19)
        self.refused("21 0001 04" + 3 * STEP + "44 0001 80", 6, 23)

    def test_several_paths_are_found_before_the_next_byte(self):
        for stray in ("00", "43 00", STEP, "ff ff ff ff"):
            self.refused("21 0001 02" + STEP + STEP + stray, 6, 14)

    def test_fields_still_due(self):
        self.refused("21 0001 01", 5, 4)
        self.refused("21 0001 03" + STEP + STEP, 5, 14)

    def test_short_head_while_a_symbol_is_due(self):
        self.refused("21 0001 01 43", 1, 4)
        self.refused("21 0001 01 44 00", 1, 4)

    def test_bytes_after_the_last_symbol(self):
        for stray in ("00", "43 00", STEP):
            self.refused("21 0001 01" + STEP + stray, 5, 9)


class RegisterReader(ReaderTest):
    file = "register"
    two = "31 0004 0002 0002 32 0001 05 32 0001 3f "

    def test_read(self):
        self.assertEqual(self.read(self.two + "33 0005 0000 3f 0001 33 0005 0001 00 0000"),
                         Register([5, 63], [(0, 63, 1), (1, 0, 0)]))

    def test_empty(self):
        self.assertEqual(self.read("31 0004 0000 0000"), Register([], []))

    def test_head_ranges(self):
        self.refused("31 0004 0401 0000", 3, 0)
        self.refused("31 0004 0000 1001", 3, 0)
        self.refused("31 0004 0400 1000", 5, 7)
        self.refused("31 0004 ffff ffff", 3, 0)

    def test_largest(self):
        largest = generate.large_register(random.Random(2))
        made = files.register_bytes(largest)
        self.assertEqual(len(made), 7 + 4 * 1024 + 8 * 4096)
        self.assertEqual(read_register(made), largest)
        self.assertEqual(refusal_of(read_register, made + b"\x33"), (5, len(made)))

    def test_numbers_have_their_high_byte_first(self):
        kinds = [0] * 258
        made = files.register_bytes(Register(kinds, [(1, 0, 256), (256, 0, 1), (257, 0, 2)]))
        self.assertEqual(made[7 + 4 * 258:].hex(" "),
                         "33 00 05 00 01 00 01 00 33 00 05 01 00 00 00 01 "
                         "33 00 05 01 01 00 00 02")
        self.assertEqual(read_register(made).links, [(1, 0, 256), (256, 0, 1), (257, 0, 2)])

    def test_kind_range(self):
        self.refused("31 0004 0001 0000 32 0001 40", 3, 7)
        self.assertEqual(self.read("31 0004 0001 0000 32 0001 3f").kinds, [63])

    def test_link_ranges(self):
        for numbers in ("0002 00 0000", "0000 40 0000", "0000 00 0002", "0100 00 0000"):
            self.refused(self.two + "33 0005 " + numbers, 3, 15)

    def test_links_ascend_strictly(self):
        first = self.two + "33 0005 0000 01 0001 "
        for higher in ("0001 00 0000", "0000 02 0000"):
            self.read(first + "33 0005 " + higher)
        for other in ("0000 01 0001", "0000 01 0000", "0000 00 0001"):
            self.refused(first + "33 0005 " + other, 4, 23)
        self.refused(first + "33 0005 0000 00 0002", 3, 23)

    def test_fields_stand_in_their_order(self):
        self.refused("31 0004 0001 0001 33 0005 0000 00 0000", 2, 7)
        self.refused("31 0004 0001 0001 32 0001 00 32 0001 00", 2, 11)
        self.refused("31 0004 0001 0001 31 0004 0001 0001", 2, 7)

    def test_no_records_and_a_link_due(self):
        self.refused("31 0004 0000 0001", 5, 7)
        self.refused("31 0004 0000 0001 33 0005 0000 00 0000", 3, 7)

    def test_fields_still_due(self):
        self.refused("31 0004 0002 0000 32 0001 00", 5, 11)
        self.refused("31 0004 0001 0001 32 0001 00", 5, 11)
        self.refused(self.two + "33 0005 0000 00 0000", 5, 23)

    def test_bytes_after_the_last_field(self):
        for stray in ("00", "32 00", "33 0005 0000 00 0000"):
            self.refused("31 0004 0000 0000" + stray, 5, 7)
            self.refused("31 0004 0001 0000 32 0001 00" + stray, 5, 11)


class NarrowedReader(ReaderTest):
    file = "narrowed"
    one = "41 0002 0001 "
    two = "41 0002 0002 "
    sets = "00 00 00 00 00 00 00 00  80 00 00 00 00 00 00 01 "
    single = "42 0011 01 " + sets + STEP  # 25 bytes
    through = "45 0008 00 00 00 00 00 00 00 03 "
    joined = "42 0011 03 " + sets + STEP + STEP

    def test_read(self):
        self.assertEqual(
            self.read(self.one + self.joined + self.through),
            [Member([Step(0, 0), Step(0, 0), JoinThrough(3)], 0, 2 ** 63 + 1)])

    def test_no_members(self):
        self.assertEqual(self.read("41 0002 0000"), [])
        self.refused("41 0002 0000 00", 5, 5)

    def test_number_of_members(self):
        self.refused("41 0002 0081", 3, 0)
        self.refused("41 0002 0100", 3, 0)
        self.refused("41 0002 0080", 5, 5)
        largest = generate.large_members(random.Random(3))
        self.assertEqual(read_narrowed(files.narrowed_bytes(largest)), largest)

    def test_number_of_symbols(self):
        for size in ("00", "31", "ff"):
            self.refused(self.one + "42 0011 " + size + self.sets + STEP, 3, 5)
        member = "42 0011 30 " + self.sets + STEP + 47 * "44 0001 85"
        self.assertEqual(len(self.read(self.one + member)[0].symbols), 48)

    def test_any_set_is_read(self):
        for text in ("00" * 8, "ff" * 8, "00" * 7 + "01"):
            member, = self.read(self.one + "42 0011 03" + text + text + STEP + STEP
                                + "45 0008" + text)
            number = int(text, 16)
            self.assertEqual(member, Member([Step(0, 0), Step(0, 0), JoinThrough(number)],
                                            number, number))

    def test_any_symbol_may_stand_anywhere(self):
        rows = ["44 0001 80", "44 0001 81", "44 0001 82", "44 0001 83", "44 0001 84",
                self.through]
        for row in rows:
            member = "42 0011 04 " + self.sets + STEP + STEP + row + "44 0001 85"
            self.assertEqual(len(self.read(self.one + member)[0].symbols), 4)

    def test_operands_of_a_join_through(self):
        self.refused(self.one + "42 0011 01 " + self.sets + self.through, 6, 25)
        self.refused(self.one + "42 0011 02 " + self.sets + STEP + self.through, 6, 30)

    def test_several_paths_remain(self):
        self.refused(self.one + "42 0011 02 " + self.sets + STEP + STEP, 6, 35)
        self.refused(self.one + "42 0011 02 " + self.sets + STEP + STEP + "ff", 6, 35)

    def test_member_not_above_the_one_before(self):
        self.refused(self.two + self.single + self.single, 4, 30)

    def test_equal_codes_whatever_the_sets_or_the_tag_of_the_join(self):
        plain, other = "44 0001 80", "45 0008" + 8 * "00"
        first = 5 + 20 + 5 + 5
        for a, b, size in ((self.through, other, 11), (plain, self.through, 4),
                           (self.through, plain, 11), (plain, plain, 4)):
            self.refused(self.two + self.joined + a + self.joined + b, 4, first + size)

    def test_start_of_another_comes_before_it(self):
        long = self.joined + "44 0001 80"
        self.assertEqual(len(self.read(self.two + self.single + long)), 2)
        self.refused(self.two + long + self.single, 4, 39)

    def test_codes_of_steps(self):
        reverse = self.single[:-len(STEP)] + "43 0002 01 00 "
        high = self.single[:-len(STEP)] + "43 0002 00 3f "
        self.assertEqual(len(self.read(self.two + high + reverse)), 2)
        self.refused(self.two + reverse + high, 4, 30)

    def test_4_is_found_after_the_last_symbol(self):
        begun = self.two + self.single + "42 0011 01 " + self.sets
        self.refused(begun, 5, 50)
        self.refused(begun + "43 0002 02 00", 3, 50)
        self.refused(begun + "44 0001 85", 6, 50)
        self.refused(begun + STEP, 4, 30)

    def test_6_stands_before_4(self):
        self.refused(self.two + self.single + "42 0011 02 " + self.sets + STEP + STEP, 6, 60)

    def test_4_is_found_before_the_next_byte(self):
        for stray in ("00", "ff ff ff", STEP):
            self.refused(self.two + self.single + self.single + stray, 4, 30)

    def test_fields_stand_in_their_order(self):
        self.refused(self.one + STEP, 2, 5)
        self.refused(self.two + self.single + STEP, 2, 30)
        self.refused(self.one + "42 0011 02 " + self.sets + STEP + self.single, 2, 30)

    def test_fields_still_due_and_bytes_after(self):
        self.refused(self.one, 5, 5)
        self.refused(self.two + self.single, 5, 30)
        self.refused(self.one + self.single + "42", 5, 30)
        self.refused(self.one + self.single + self.single, 5, 30)
        self.refused(self.two + self.single + "42", 1, 30)


class RandomFiles(unittest.TestCase):
    def test_readers_agree_with_the_naive_judge(self):
        rng = random.Random(11)
        for file, reader in READERS.items():
            seen = Counter()
            for _ in range(2500):
                data = generate.random_file(rng, file)
                expected = naive.verdict(file, data)
                self.assertEqual(refusal_of(reader, data), expected, (file, data.hex(" ")))
                seen[expected and expected[0]] += 1
            due = {None, 1, 2, 3, 5} | ({6} if file in ("question", "narrowed") else set())
            due |= {4} if file != "question" else set()
            self.assertEqual(set(seen), due)

    def test_writers_and_readers_are_inverse(self):
        rng = random.Random(12)
        for _ in range(500):
            sheet, question, register = generate.random_job(rng)
            self.assertEqual(read_sheet(files.sheet_bytes(sheet)), sheet)
            self.assertEqual(read_question(files.question_bytes(question)), question)
            self.assertEqual(read_register(files.register_bytes(register)), register)


if __name__ == "__main__":
    unittest.main()
