# Asks the engine programs: a batch of questions goes to each, the answers come
# back as lists of nodes (or None for an error).
import subprocess

import tables


def document_question(table):
    xml = tables.xml_text(table)
    return "doc %d\n%s\n" % (len(xml), xml)


def eval_question(start, text):
    return "eval %d %s\n" % (start, text)


def ask(program, questions):
    done = subprocess.run([program], input="".join(questions), text=True,
                          stdout=subprocess.PIPE, check=True)
    return done.stdout.splitlines()


def read_answer(line):
    if line.startswith("error"):
        return None
    numbers = [int(w) for w in line.split()]
    assert numbers[0] == len(numbers) - 1
    return numbers[1:]


def ask_both(build, questions):
    """The answer lines of pugixml and of libxml2, asked side by side."""
    from concurrent.futures import ThreadPoolExecutor
    with ThreadPoolExecutor(2) as pool:
        programs = [build + "/engine_pugixml", build + "/engine_libxml2"]
        return list(pool.map(lambda p: ask(p, questions), programs))
