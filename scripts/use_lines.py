"""The lines that a `use` line stands for, as docs/LANGUAGE.md describes them, for tools that read sources."""

import re

MOST_TURNS = 99


class Refused(Exception):
    """A source that cannot be taken: the number of the line, and why."""


def split(base, name):
    """A splitter."""
    return f"""
    write {base} {name}
    read v0 {base + 1}
    if v0
      emit 2
      halt
    fi
    write {base + 1} 1
    read v0 {base}
    if v0 = {name}
      emit 1
    else
      emit 3
    fi"""


def grid(base, side, name):
    """A grid: v0 is row and column together, v1 the name of the vertex, v2 and v3 its registers."""
    return f"""
    set v1 1
    repeat {side}
      set v2 v1 * 2
      set v2 v2 + {base}
      set v2 v2 - 2
      set v3 v2 + 1
      write v2 {name}
      read v4 v3
      if v4
        set v1 v1 + v0
        set v1 v1 + 2
      else
        write v3 1
        read v4 v2
        if v4 = {name}
          emit v1
          halt
        fi
        set v1 v1 + v0
        set v1 v1 + 1
      fi
      set v0 v0 + 1
    done"""


def tree(base, depth, name, value):
    """A tree: v0 is the vertex, v1 whether the process stopped; cell v tells that the parent of vertex v was
    seen marked."""
    return f"""
    set v0 1
    repeat {depth}
      if v1 = 0
        set v2 v0 - 1
        set v2 v2 * 4
        set v2 v2 + {base}
        set v3 v2 + 1
        set v4 v2 + 2
        write v2 1
        write v3 {name}
        read v5 v4
        if v5
          set v0 v0 * 2
          set v0 v0 + 1
        else
          write v4 1
          read v5 v3
          if v5 = {name}
            set v1 1
          else
            set v0 v0 * 2
          fi
        fi
      fi
    done
    if v1 = 0
      halt
    fi
    set v2 v2 + 3
    write v2 {value}
    set [1] 1
    set v0 0
    repeat {2 ** depth - 1}
      set v0 v0 + 1
      if [v0]
        set v2 v0 * 4
        set v2 v2 + {base}
        set v2 v2 - 4
        read v3 v2
        if v3
          set v2 v2 + 3
          read v3 v2
          if v3
            emit v3
          fi
          set v3 v0 * 2
          set [v3] 1
          set v3 v3 + 1
          set [v3] 1
        fi
      fi
    done"""


def renaming(base, slots, slot, looked, look):
    """Rounds of a renaming, by the lines that look at all slots first, and those that look at slot v3. v0 is
    the proposal, v1 tells a clash, v2 is the rank."""
    return f"""
    set v0 1
    repeat {MOST_TURNS}
      write {base + slot} v0
      {looked}
      set v1 0
      set v2 1
      set v3 0
      repeat {slots}
        {look}
        set v3 v3 + 1
      done
      if v1 = 0
        emit v0
        halt
      fi
      set v4 0
      repeat {2 * slots - 1}
        if v2
          set v4 v4 + 1
          set v5 0
          set v3 0
          repeat {slots}
            if [v3] = v4
              set v5 1
            fi
            set v3 v3 + 1
          done
          if v5 = 0
            set v2 v2 - 1
          fi
        fi
      done
      set v0 v4
    done"""


def judged(slot):
    """The lines that judge what slot v3 held."""
    return f"""
        if [v3] = v0
          set v1 1
        fi
        if v3 < {slot}
          if [v3]
            set v2 v2 + 1
          fi
        fi"""


def name(base, slots, slot):
    """A renaming that reads slot after slot."""
    look = f"""
        if v3 = {slot}
          set [v3] 0
        else
          set v4 v3 + {base}
          read [v3] v4
          {judged(slot)}
        fi"""
    return renaming(base, slots, slot, "", look)


def names(base, slots, slot):
    """A renaming that scans all slots."""
    return renaming(base, slots, slot, f"scan 0 {base} {slots}\nset [{slot}] 0", judged(slot))


KINDS = {"split": (split, 2), "grid": (grid, 3), "tree": (tree, 4), "name": (name, 3), "names": (names, 3)}


def lines_of_use(number, words):
    """The words of each line that a `use` line stands for."""
    kind, *numbers = words[1:] or [""]
    make, count = KINDS.get(kind, (None, 0))
    if not make or len(numbers) != count or not all(it.isdecimal() for it in numbers):
        raise Refused(number, f"no kind with its numbers: {' '.join(words)}")
    return [line.split() for line in make(*map(int, numbers)).splitlines() if line.strip()]


def lines_of(text):
    """Of each line with words its number and its words; in the place of a `use` line the words of each line
    that it stands for."""
    for number, line in enumerate(text.split("\n"), 1):
        if not re.fullmatch("[ -~]*", line):
            raise Refused(number, "a byte that is not printable ASCII")
        words = line.split()
        if words and not words[0].startswith("#"):
            for each in lines_of_use(number, words) if words[0] == "use" else [words]:
                yield number, each
