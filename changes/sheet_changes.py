"""Small changes of Lists, Digits and Sheet."""

from change import change, taking

# ---- Lists
change("keep_if keeps what fails", "Lists", "keep_if true x xs = x ∷ xs", "keep_if true x xs = xs", "keep_if false x xs = xs", "keep_if false x xs = x ∷ xs")
change("keep stops at the first that fails", "Lists", "keep_if false x xs = xs", "keep_if false x xs = []")
change("any_of of none is true", "Lists", "any_of test [] = false", "any_of test [] = true")
change("any_of looks at the first only", "Lists", "| false ↦ any_of test xs ]", "| false ↦ false ]")
change("all_of of none is false", "Lists", "all_of test [] = true", "all_of test [] = false")
change("all_of looks at the first only", "Lists", "[ true ↦ all_of test xs |", "[ true ↦ true |")
change("filled loses what is beyond", "Lists", "filled xs buffer = xs ++ drop (length xs) buffer", "filled xs buffer = xs")
change("filled shifts what is beyond", "Lists", "filled xs buffer = xs ++ drop (length xs) buffer", "filled xs buffer = xs ++ buffer")
change("place puts in front", "Lists", "| false ↦ y ∷ place x ys ]", "| false ↦ x ∷ y ∷ ys ]")
change("place puts behind", "Lists", "[ true ↦ x ∷ y ∷ ys |", "[ true ↦ y ∷ place x ys |")
change("place drops", "Lists", "place x [] = x ∷ []", "place x [] = []")
change("place_all forgets the queue", "Lists", "place_all [] ys = ys", "place_all [] ys = []")
change("place_all appends", "Lists", "place_all (x ∷ xs) ys = place x (place_all xs ys)", "place_all (x ∷ xs) ys = x ∷ place_all xs ys")
change("values_from in twos", "Lists", "x ∷ values_from (x + 1) n", "x ∷ values_from (x + 2) n")
change("Some: at the head only", "Lists", "Some P (x ∷ xs) = P x ⊎ Some P xs", "Some P (x ∷ xs) = P x")
change("All: at the head only", "Lists", "All P (x ∷ xs) = P x × All P xs", "All P (x ∷ xs) = P x")
change("Pairs: of the first with the others only", "Lists", "Pairs R (x ∷ xs) = All (R x) xs × Pairs R xs", "Pairs R (x ∷ xs) = All (R x) xs")
change("Begins: ends", "Lists", "(ys ≡ xs ++ rest)", "(ys ≡ rest ++ xs)")
# ---- Digits
change("number: the lowest digit first", "Digits", "number b (suc k) (d ∷ ds) = d * b ^ k + number b k ds", "number b (suc k) (d ∷ ds) = d + b * number b k ds")
change("number: ones behind", "Digits", "number b (suc k) [] = 0", "number b (suc k) [] = 1")
change("digits: no remainder", "Digits", "n / b ^ k % b ∷ digits b k n", "n / b ^ k ∷ digits b k n")
change("digits: one place off", "Digits", "n / b ^ k % b ∷ digits b k n", "n / b ^ (suc k) % b ∷ digits b k n")
# ---- Sheet
change("sizes: states first", "Sheet", "sizes p = decision_sizes p ++ p.states", "sizes p = p.states ++ decision_sizes p")
change("bit: least significant first", "Sheet", "(place % 8) 0", "(7 - place % 8) 0")
change("bit: beyond the end is 1", "Sheet", "(get_or sheet (place / 8) 0)) (place % 8) 0", "(get_or sheet (place / 8) 255)) (place % 8) 0")
change("bits: one repeated", "Sheet", "bit_at sheet place ∷ bits_at sheet w (place + 1)", "bit_at sheet place ∷ bits_at sheet w place")
change("then forgets a refusal's number", "Sheet", "then (refused n) next = refused n", "then (refused n) next = refused 5")
change("many from the last", "Sheet", "(λ others end. got (a ∷ others) end))", "(λ others end. got (others ++ (a ∷ [])) end))")
change("a field may not end at the end", "Sheet", "elim (leb (place + w) (8 * length sheet)) [", "elim (ltb (place + w) (8 * length sheet)) [")
change("a field need only start before the end", "Sheet", "elim (leb (place + w) (8 * length sheet)) [", "elim (ltb place (8 * length sheet)) [")
change("a field need only start at the end", "Sheet", "elim (leb (place + w) (8 * length sheet)) [", "elim (leb place (8 * length sheet)) [")
change("a field may run to the next byte", "Sheet", "elim (leb (place + w) (8 * length sheet)) [", "elim (leb (place + w) (8 * length sheet + 7)) [")
change("a field past the end: 13", "Sheet", "| false ↦ refused 5\n]", "| false ↦ refused 13\n]")
change("edition 0", "Sheet", "number = 1; most = 16", "number = 0; most = 16")
change("most 15 decisions", "Sheet", "number = 1; most = 16", "number = 1; most = 15")
change("most 17 decisions", "Sheet", "number = 1; most = 16", "number = 1; most = 17")
change("cost bits 8", "Sheet", "cost_bits = 16", "cost_bits = 8")
change("cost bits 15", "Sheet", "cost_bits = 16", "cost_bits = 15")
change("D 0 allowed", "Sheet", "decisions_allowed e d = leb 1 d &&", "decisions_allowed e d = leb 0 d &&")
change("D 1 refused", "Sheet", "decisions_allowed e d = leb 1 d &&", "decisions_allowed e d = ltb 1 d &&")
change("D 16 refused", "Sheet", "&& leb d e.most", "&& ltb d e.most")
change("D: either bound will do", "Sheet", "decisions_allowed e d = leb 1 d && leb d e.most", "decisions_allowed e d = leb 1 d")
EDITION2 = "number = 2; most = 8; cost_bits = 8; weighed = true"
change("edition 1 weighed", "Sheet", "cost_bits = 16; weighed = false", "cost_bits = 16; weighed = true")
change("edition 2 numbered 3", "Sheet", EDITION2, EDITION2.replace("number = 2", "number = 3"))
change("edition 2 numbered 1", "Sheet", EDITION2, EDITION2.replace("number = 2", "number = 1"))
change("edition 2: most 7 decisions", "Sheet", EDITION2, EDITION2.replace("most = 8", "most = 7"))
change("edition 2: most 9 decisions", "Sheet", EDITION2, EDITION2.replace("most = 8", "most = 9"))
change("edition 2: most 16 decisions", "Sheet", EDITION2, EDITION2.replace("most = 8", "most = 16"))
change("edition 2: weights of 7 bits", "Sheet", EDITION2, EDITION2.replace("cost_bits = 8", "cost_bits = 7"))
change("edition 2: weights of 9 bits", "Sheet", EDITION2, EDITION2.replace("cost_bits = 8", "cost_bits = 9"))
change("edition 2: weights of 16 bits", "Sheet", EDITION2, EDITION2.replace("cost_bits = 8", "cost_bits = 16"))
change("edition 2 not weighed", "Sheet", EDITION2, EDITION2.replace("weighed = true", "weighed = false"))
change("edition_of: swapped", "Sheet", "edition_of false = edition1\nedition_of true = edition2", "edition_of false = edition2\nedition_of true = edition1")
change("edition_of: edition 1 for either", "Sheet", "edition_of true = edition2", "edition_of true = edition1")
FIGURE = "then (field sheet e.cost_bits place) (λ c after. elim (e.weighed && eqb c 0) [ true ↦ refused 20 | false ↦ got c after ])"
change("figure: a weight of zero taken", "Sheet", FIGURE, "field sheet e.cost_bits place")
change("figure: a weight of 1 refused", "Sheet", FIGURE, FIGURE.replace("eqb c 0", "ltb c 2"))
change("figure: a weight of 255 refused", "Sheet", FIGURE, FIGURE.replace("eqb c 0", "(eqb c 0 || eqb c 255)"), *taking("◌||◌"))
change("figure: a cost of zero refused", "Sheet", FIGURE, FIGURE.replace("e.weighed && eqb c 0", "eqb c 0"))
change("figure: 20 as 7", "Sheet", FIGURE, FIGURE.replace("refused 20", "refused 7"))
change("figure: 20 before 5", "Sheet", FIGURE, "elim (e.weighed && eqb (number 2 8 (bits_at sheet 8 place)) 0) [ true ↦ refused 20 | false ↦ field sheet e.cost_bits place ]")
change("figure: 5 for 20", "Sheet", FIGURE, FIGURE.replace("refused 20", "refused 5"))
change("figure: a weight of zero read as 1", "Sheet", FIGURE, FIGURE.replace("refused 20", "got 1 after"))
FIGURES = "many read_figure (n + 1) after)"
change("figures: a variable's last unchecked", "Sheet", FIGURES, "then (many read_figure n after) (λ ws after. then (field sheet e.cost_bits after) (λ c after. got (ws ++ (c ∷ [])) after)))")
change("figures: only a variable's first checked", "Sheet", FIGURES, "then (read_figure after) (λ w after. then (many (field sheet e.cost_bits) n after) (λ ws after. got (w ∷ ws) after)))")
change("figures: all of a variable's read before they are checked", "Sheet", FIGURES, "then (many (field sheet e.cost_bits) (n + 1) after) (λ ws end. many read_figure (n + 1) after))")
STATES = "then (many read_decision d place) (λ costs after.\n      then (many (read_state sheet) s after) (λ states after."
UNCHECKED = "many (λ at. then (field sheet 4 at) (λ n after. many (field sheet e.cost_bits) (n + 1) after)) d place"
change("figures: all variables read before weights are checked", "Sheet", STATES, STATES.replace("then (many read_decision d place) (λ costs after.", f"then ({UNCHECKED}) (λ unchecked end. then (many read_decision d place) (λ costs after."), "read_end sheet (record { costs = costs; states = states; clauses = clauses }) after)))", "read_end sheet (record { costs = costs; states = states; clauses = clauses }) after))))")
change("figures: weights checked after the clauses", "Sheet", "then (many read_decision d place) (λ costs after.", f"then ({UNCHECKED}) (λ costs after.", "read_end sheet (record { costs = costs; states = states; clauses = clauses }) after)))", "then (many read_decision d place) (λ checked end. read_end sheet (record { costs = costs; states = states; clauses = clauses }) after))))")
change("figures: weights checked after the filler", "Sheet", "then (many read_decision d place) (λ costs after.", f"then ({UNCHECKED}) (λ costs after.", "read_end sheet (record { costs = costs; states = states; clauses = clauses }) after)))", "then (read_end sheet (record { costs = costs; states = states; clauses = clauses }) after) (λ p end. then (many read_decision d place) (λ checked behind. got p end)))))")
EITHER = "elim (eqb (get_or sheet 0 0) 2) [ true ↦ read_sheet edition2 sheet | false ↦ read_sheet edition1 sheet ]"
change("either: edition 1 only", "Sheet", EITHER, "read_sheet edition1 sheet")
change("either: edition 2 only", "Sheet", EITHER, "read_sheet edition2 sheet")
change("either: swapped", "Sheet", EITHER, EITHER.replace("edition2", "edition0").replace("edition1", "edition2").replace("edition0", "edition1"))
change("either: the second byte looked at", "Sheet", EITHER, EITHER.replace("get_or sheet 0 0", "get_or sheet 1 0"))
change("either: edition 2 where the first byte is not 1", "Sheet", EITHER, "elim (eqb (get_or sheet 0 0) 1) [ false ↦ read_sheet edition2 sheet | true ↦ read_sheet edition1 sheet ]")
change("either: an empty sheet is of edition 2", "Sheet", EITHER, EITHER.replace("get_or sheet 0 0", "get_or sheet 0 2"))
change("either: 20 unchecked", "Sheet", EITHER, EITHER.replace("read_sheet edition2", "read_sheet (record { number = 2; most = 8; cost_bits = 8; weighed = false })"))
change("either: sixteen weighed decisions", "Sheet", EITHER, EITHER.replace("read_sheet edition2", "read_sheet (record { number = 2; most = 16; cost_bits = 8; weighed = true })"))
change("either: edition 3 taken", "Sheet", EITHER, "elim (eqb (get_or sheet 0 0) 3) [ true ↦ read_sheet (record { number = 3; most = 16; cost_bits = 16; weighed = false }) sheet | false ↦ " + EITHER + " ]")
change("decision size not plus 1", "Sheet", "many read_figure (n + 1) after)", "many read_figure n after)")
change("decision size 16 read as 8", "Sheet", "many read_figure (n + 1) after)", "many read_figure (n % 8 + 1) after)")
change("decision size of 3 bits", "Sheet", "then (field sheet 4 place) (λ n after. many read_figure (n + 1) after)", "then (field sheet 3 place) (λ n after. many read_figure (n + 1) after)")
change("state size not plus 1", "Sheet", "got (n + 1) after)", "got n after)")
change("state size at most 8", "Sheet", "got (n + 1) after)", "got (n % 8 + 1) after)")
change("literal's variable: one beyond", "Sheet", "elim (ltb v (length domains)) [", "elim (leb v (length domains)) [")
change("literal's variable unchecked", "Sheet", "elim (ltb v (length domains)) [", "elim (ltb v 64) [")
change("literal's last variable refused", "Sheet", "elim (ltb v (length domains)) [", "elim (ltb (v + 1) (length domains)) [")
change("literal's value: one beyond", "Sheet", "elim (ltb x (get_or domains v 0)) [", "elim (leb x (get_or domains v 0)) [")
change("literal's highest value refused", "Sheet", "elim (ltb x (get_or domains v 0)) [", "elim (ltb (x + 1) (get_or domains v 0)) [")
change("literal's value: domain of variable 0", "Sheet", "elim (ltb x (get_or domains v 0)) [", "elim (ltb x (get_or domains 0 0)) [")
change("10 and 11 swapped", "Sheet", "refused 10", "refused 11x", "refused 11\n", "refused 10\n", "refused 11x", "refused 11")
LITERAL = """      then (field sheet 6 place) (λ v after.
      elim (ltb v (length domains)) [
        | false ↦ refused 10
        | true ↦
            then (field sheet 1 after) (λ s after.
            then (field sheet 4 after) (λ x after.
            elim (ltb x (get_or domains v 0)) [
              | false ↦ refused 11
              | true ↦
                  got (record { variable = v; sign = s; value = x }) after
            ]))
      ])
"""
change("10 after sign and value", "Sheet", LITERAL, """      then (field sheet 6 place) (λ v after.
      then (field sheet 1 after) (λ s after.
      then (field sheet 4 after) (λ x after.
      elim (ltb v (length domains)) [
        | false ↦ refused 10
        | true ↦
            elim (ltb x (get_or domains v 0)) [
              | false ↦ refused 11
              | true ↦
                  got (record { variable = v; sign = s; value = x }) after
            ]
      ])))
""")
change("10 after the sign", "Sheet", LITERAL, """      then (field sheet 6 place) (λ v after.
      then (field sheet 1 after) (λ s after.
      elim (ltb v (length domains)) [
        | false ↦ refused 10
        | true ↦
            then (field sheet 4 after) (λ x after.
            elim (ltb x (get_or domains v 0)) [
              | false ↦ refused 11
              | true ↦
                  got (record { variable = v; sign = s; value = x }) after
            ])
      ]))
""")
change("literal: value before sign", "Sheet", "then (field sheet 1 after) (λ s after.", "then (field sheet 4 after) (λ x after.", "            then (field sheet 4 after) (λ x after.\n            elim", "            then (field sheet 1 after) (λ s after.\n            elim")
change("literal: sign turned", "Sheet", "sign = s; value = x", "sign = 1 - s; value = x")
change("clause: one literal fewer", "Sheet", "many (read_literal domains) n after)", "many (read_literal domains) (n - 1) after)")
change("clause: at most seven literals", "Sheet", "many (read_literal domains) n after)", "many (read_literal domains) (n % 8) after)")
change("filler unchecked", "Sheet", "[ false ↦ refused 12 | true ↦ read_filler n (place + 1) ]", "[ false ↦ read_filler n (place + 1) | true ↦ read_filler n (place + 1) ]")
change("filler: first bit only", "Sheet", "| true ↦ read_filler n (place + 1) ]", "| true ↦ got 0 (place + 1 + n) ]")
change("filler: last bit only", "Sheet", "read_filler (suc n) place = elim (eqb (bit_at sheet place) 0)", "read_filler (suc n) place = elim (eqb (bit_at sheet (place + n)) 0)")
change("filler: a whole byte at a boundary", "Sheet", "read_filler ((8 - place % 8) % 8) place", "read_filler (8 - place % 8) place")
change("filler: up to a word's end", "Sheet", "read_filler ((8 - place % 8) % 8) place", "read_filler ((16 - place % 16) % 16) place")
change("bytes after allowed", "Sheet", "elim (eqb end (8 * length sheet)) [", "elim (leb end (8 * length sheet)) [")
change("12 as 13", "Sheet", "[ false ↦ refused 12 |", "[ false ↦ refused 13 |")
change("13 before 12", "Sheet", """      then (read_filler ((8 - place % 8) % 8) place) (λ zeros end.
      elim (eqb end (8 * length sheet)) [ false ↦ refused 13 | true ↦ got p end ])
""", """      elim (ltb (place + 7) (8 * length sheet)) [ true ↦ refused 13 | false ↦ then (read_filler ((8 - place % 8) % 8) place) (λ zeros end. got p end) ]
""")
change("body: states before decisions in the domains", "Sheet", "(map length costs ++ states)) c after)", "(states ++ map length costs)) c after)")
change("body: no state variable in a clause", "Sheet", "(map length costs ++ states)) c after)", "(map length costs)) c after)")
change("S 32 refused", "Sheet", "elim (leb s 32) [", "elim (ltb s 32) [")
change("S 33 allowed", "Sheet", "elim (leb s 32) [", "elim (leb s 33) [")
change("C 512 refused", "Sheet", "elim (leb c 512) [", "elim (ltb c 512) [")
change("C 513 allowed", "Sheet", "elim (leb c 512) [", "elim (leb c 513) [")
change("8 and 9 swapped", "Sheet", "| false ↦ refused 8", "| false ↦ refused 9x", "| false ↦ refused 9\n", "| false ↦ refused 8\n", "refused 9x", "refused 9")
change("6 as 7", "Sheet", "| false ↦ refused 6", "| false ↦ refused 7")
change("edition looked at after D", "Sheet", """      elim (eqb n e.number) [
        | false ↦ refused 6
        | true ↦
            then (field sheet 5 after) (λ d after.
            elim (decisions_allowed e d) [
              | false ↦ refused 7
""", """      then (field sheet 5 after) (λ d after.
      elim (decisions_allowed e d) [
        | false ↦ refused 7
        | true ↦
            elim (eqb n e.number) [
              | false ↦ refused 6
""", """                        ])
                  ])
            ])
      ])
""", """                        ])
                  ])
            ]
      ]))
""")
change("edition looked at after D is read", "Sheet", """      elim (eqb n e.number) [
        | false ↦ refused 6
        | true ↦
            then (field sheet 5 after) (λ d after.
            elim""", """      then (field sheet 5 after) (λ d after.
      elim (eqb n e.number) [
        | false ↦ refused 6
        | true ↦
            elim""", """                        ])
                  ])
            ])
      ])
""", """                        ])
                  ])
            ]
      ]))
""")
change("D looked at after S is read", "Sheet", """            elim (decisions_allowed e d) [
              | false ↦ refused 7
              | true ↦
                  then (field sheet 6 after) (λ s after.
                  elim""", """            then (field sheet 6 after) (λ s after.
            elim (decisions_allowed e d) [
              | false ↦ refused 7
              | true ↦
                  elim""", """                        ])
                  ])
            ])
      ])
""", """                        ])
                  ]
            ]))
      ])
""")
change("S looked at after C is read", "Sheet", """                  elim (leb s 32) [
                    | false ↦ refused 8
                    | true ↦
                        then (field sheet 10 after) (λ c after.
                        elim""", """                  then (field sheet 10 after) (λ c after.
                  elim (leb s 32) [
                    | false ↦ refused 8
                    | true ↦
                        elim""", """                        ])
                  ])
            ])
      ])
""", """                        ]
                  ]))
            ])
      ])
""")
