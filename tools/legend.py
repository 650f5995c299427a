# SPDX-License-Identifier: Apache-2.0 OR MIT
"""What docs/STATEMENT.md says between its definitions: how its notation is read, and its core (tools/statement)."""

# A form of the notation, and how it is read.
NOTATION = [
    ("`f x y`; `λ x. t`; `let x = a in t`", "f of x and y; the function that maps x to t; t, where x stands for a"),
    ("`f : A → B`", "f takes an A and gives a B"),
    ("`P → Q`, `P × Q`, `P ⊎ Q`", "if P then Q; P and Q; P or Q. *And* may stretch over lines that begin with `×`"),
    ("`(x : A) → P`, `(x : A) × P`", "for each x in A, P; there is an x in A with P"),
    ("`Unit {0}`, `⊥`", "always so; never so"),
    ("`Type 0`", "what a definition gives that says something: `IsPage : ℕ → ℕ → List Entry → Type 0` is a relation of two numbers and a list"),
    ("`a ≡ b`, `a ≢ b`, `a == b`", "a and b are equal; they aren't; the same, computed as `true` or `false`. `&&`, `||` and `not` are computed too"),
    ("`record R (a : A) : Type 0`", "the statement R of a. Its fields, each `pub name : P`, are what it says, all of them"),
    ("`record { f = a }`, `record v { f = a }`", "a record with these fields; v, but with a as its field f"),
    ("`v.f`; `p.0`, `p.1`", "the field f of v; the two parts of a pair"),
    ("`data`; `Command.Reply d`", "an enum, by its cases; one of its cases, with what it holds"),
    ("`[]`, `x ∷ xs`, `xs ++ ys`", "the empty list; x before the list xs; one list behind the other"),
    ("`length xs`, `take n xs`, `drop n xs`, `get_elem? xs i`", "how many; the first n; all but these; the one at place i, from 0, or `none`"),
    ("`ℕ`, `zero`, `suc n`, `/`, `%`", "the numbers from 0 on; 0; n + 1; division without remainder; its remainder"),
    ("`f zero = ..`, `f (suc n) = ..`; `where`", "a definition by cases, of which the first that fits is meant, and `_` fits all; words of the definition above alone"),
    ("`elim x [ p ↦ a | q ↦ b ]`, `if c then a else b`, `cond c a b`", "a or b, by the case that x is, or by c"),
    ("`Some a`, `None`; `some a`, `none`", "Rust's `Option`; the library's own, with the same meaning"),
    ("`requires`, `ensures NAME`", "what a call may be made with; what then holds, under a name"),
    ("`p.old`, `p.new`, `self.now`, `result`", "what `p` leads to before the call, and after it; what `self` leads to; what the call answers"),
    ("`abbrev`, `unfoldable`, `pub`; `ghost use`", "for the prover: where it may open a definition, and where a word is from (`◌` is an operand's place)"),
]

# The core: what is said, and the definitions that say it. A call is (file, name), a definition (crate, module, name).
CORE = [
    ("A call. The view of the caller's seat is `v` before it and `w` after it. A view has the history that the seat has seen (`seen`) and "
     "the places of its own entries there (`own`).",
     [("calls", "call"), ("bd_driver", "Driver", "Calls"), ("bd_driver", "Driver", "IsOutcome"), ("bd_driver", "Driver", "Stands")]),
    ("What a run is: the entries and the answer that the definition of the space gives, after the history so far. Memory or a limit may cut "
     "a write short (`IsCut`), behind a command that ran.",
     [("bd_space", "Runs", "IsRun"), ("bd_space", "Runs", "IsWhole")]),
    ("The end. All seats come back, and the driver hands out its history.",
     [("driver", "finish"), ("bd_driver", "Together", "IsFinal"), ("bd_driver", "Together", "OwnEntries")]),
    ("What a history is. `step` is the space's rule: what each step answers, and what it leaves.",
     [("bd_space", "Histories", "IsHistory"), ("bd_space", "Histories", "Follows"), ("bd_space", "Histories", "EntryFollows"),
      ("bd_space", "Steps", "step")]),
]
AFTER_CORE = ("The sentence's last words, *its tables stand for the space*, are in [the rule](#rule-of-bd_driver): while nobody has the engine, "
              "slot 0 holds the engine of the published history (`homes`, `home_of`). That an engine's tables stand for its history is what "
              "contracts see of an engine ([below](#when-tables-stand-for-a-space)).")
