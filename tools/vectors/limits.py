# W-211: tables that the program in Rattle does not hold. Which limit is met, its
# own or the library's, is the answer to all that asks of the table, until the
# next table; paths are checked and turned as always. A range stands for such a
# table: nobody looks at its numbers.
import checker
import damage
import selection

# Numbers of tables that meet the program's limit and of ones that meet the library's.
PROGRAMS = [16385, 16386, 16388, 32764, 32768]
LIBRARYS = [32769, 32772, 65536, damage.TOP]
# Two of each, of which all is asked.
ASKED = [16388, 32768, 32772, damage.TOP]
# The library's answer; the sheet writes which limit was met instead.
REFUSED = 1, 0


def ask_path(sheet):
    sheet.check_path("limits", damage.GOOD_PATH, [], checker.check_path(damage.GOOD_PATH, []))
    sheet.turn("limits", damage.GOOD_PATH, [], 15, *checker.turn(damage.GOOD_PATH, [], 15))


def ask_all(sheet, table):
    """All that asks of a table, before and behind what does not; 3 is no edition."""
    for edition in (2, 1, 3):
        sheet.evaluate("limits", edition, table, damage.GOOD_PATH, [], 1, 5, *REFUSED, [])
    sheet.place("limits", table, 3, 0, 1, 0)
    ask_path(sheet)
    sheet.view("limits", table, 0, [0, 1], None)
    sheet.check_table("limits", table, REFUSED)


def add_cases(sheet):
    for count in PROGRAMS + LIBRARYS:
        table = range(count)
        sheet.check_table("limits", table, REFUSED)
        if count in ASKED:
            ask_all(sheet, table)
    held = selection.SMALLEST
    sheet.check_table("limits", held, checker.check_table(held))
    sheet.view("limits", held, 0, [0, 1], checker.view(held, [0, 1], 0))
