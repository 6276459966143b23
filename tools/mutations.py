"""Changes of meaning for tools/mutate, each: the file of specs/, what is changed, the old text, which stands there once, and the new."""

# What a change may disturb beside the worked plans that are to see it, by those, where that is not nothing.
# Two changes are tried at once where neither may disturb what is to see the other.
DISTURBS = {
    "formulas::values": ["formulas::", "operators::", "plans::", "rule_files::"],
    "formulas::": ["rule_files::"],
    "kinds::": ["rule_files::"],
    "operators::canon": ["operators::", "plans::"],
    "operators::satisfies": ["plans::"],
    "operators::target": ["plans::"],
    "operators::chain": ["plans::"],
    "operators::access_heap": ["plans::"],
    "operators::access_index": ["plans::"],
    "operators::get": ["plans::"],
    "operators::filter": ["plans::"],
    "operators::sort": ["plans::"],
    "operators::store": ["plans::"],
    "operators::ship": ["plans::"],
    "operators::probe": ["plans::"],
    "operators::join_nl": ["plans::"],
    "operators::join_hash": ["operators::join_merge", "plans::"],
    "operators::join_merge": ["plans::"],
    "values::and_": ["operators::", "plans::"],
    "values::begins_": ["operators::", "plans::"],
    "values::between_": ["operators::", "plans::"],
    "values::empty_": ["operators::", "plans::"],
    "values::equalities_": ["operators::", "plans::"],
    "values::home_": ["operators::", "plans::"],
    "values::indexable_": ["operators::", "plans::"],
    "values::indexes_": ["operators::", "plans::"],
    "values::inside_": ["operators::", "plans::"],
    "values::keys_": ["operators::", "plans::"],
    "values::members_": ["operators::", "plans::"],
    "values::minus_": ["operators::", "plans::"],
    "values::or_": ["operators::", "plans::"],
    "values::order_": ["operators::", "plans::"],
    "values::querysite_": ["operators::", "plans::"],
    "values::same_": ["operators::", "plans::"],
    "values::single_": ["operators::", "plans::"],
    "values::temp_": ["operators::", "plans::"],
    "values::within_": ["operators::", "plans::"],
}

# by the worked plans that are to see them
CHANGES = {
    "formulas::values": [
        ("Numbers", "a sum isn't cut", "cut_sum a b = cut (a + b)", "cut_sum a b = a + b"),
        ("Numbers", "a product isn't cut", "cut_product a b = cut (a * b)", "cut_product a b = a * b"),
        ("Numbers", "a quotient downwards", "(a + (max 1 b - 1)) / max 1 b", "a / max 1 b"),
        ("Numbers", "a divisor of 0 gives 0", "(a + (max 1 b - 1)) / max 1 b", "(a + (b - 1)) / b"),
        ("Formulas", "a literal isn't cut", "value (Number n) v = cut n", "value (Number n) v = n"),
        ("Formulas", "less is at most", "compares test.Lt a b = nat_lt a b", "compares test.Lt a b = nat_le a b"),
        ("Formulas", "at most is less", "compares test.Le a b = nat_le a b", "compares test.Le a b = nat_lt a b"),
        ("Formulas", "min is max", "value (Min a b) v = min (value a v) (value b v)", "value (Min a b) v = max (value a v) (value b v)"),
        ("Formulas", "the branches of an if exchanged", "then value a v else value b v", "then value b v else value a v"),
        ("Formulas", "net is cpu", "entry var.Net v = v.net", "entry var.Net v = v.cpu"),
    ],
    "formulas::": [
        ("Monotone", "rescan2 is no input cost", "is_input_cost var.Rescan2 = true", "is_input_cost var.Rescan2 = false"),
        ("Monotone", "the subtrahend isn't looked at", "passes (Sub a b) = passes a && is_free b", "passes (Sub a b) = passes a && passes b"),
        ("Monotone", "the test of an if may have input costs", "passes (If t x y a b) = is_free x && is_free y && passes a && passes b", "passes (If t x y a b) = passes x && passes y && passes a && passes b"),
        ("Monotone", "nodes count from 0", "option_map (λ n. n + 1) (position offends (nodes f))", "position offends (nodes f)"),
    ],
    "kinds::": [
        ("Kinds", "an order of predicates", "kind_of ks (WithOrder t c) = given (asks kind.Stream (kind_of ks t) && asks kind.Cols (kind_of ks c)) kind.Stream", "kind_of ks (WithOrder t c) = given (asks kind.Stream (kind_of ks t)) kind.Stream"),
        ("Kinds", "tables of anything", "kind_of ks (Tables t) = given (asks kind.Stream (kind_of ks t)) kind.Quants", "kind_of ks (Tables t) = Some kind.Quants"),
        ("Kinds", "keys turned", "kind_of ks (Keys p s) = given (asks kind.Preds (kind_of ks p) && asks kind.Quants (kind_of ks s)) kind.Cols", "kind_of ks (Keys p s) = given (asks kind.Quants (kind_of ks p) && asks kind.Preds (kind_of ks s)) kind.Cols"),
        ("Kinds", "sets of two kinds", "sets_of _ _ = None", "sets_of a _ = a"),
        ("Kinds", "members of predicates", "kind_of_range ks (range.Members s) = given (asks kind.Quants (kind_of ks s)) kind.Quants", "kind_of_range ks (range.Members s) = given (asks kind.Preds (kind_of ks s)) kind.Quants"),
        ("Kinds", "same streams", "one_kind (Some k) (Some l) = same_kind k l && not (same_kind k kind.Stream)", "one_kind (Some k) (Some l) = same_kind k l"),
        ("Kinds", "empty columns aren't kinded", " || asks kind.Cols (kind_of ks v)", ""),
        ("Kinds", "single predicates", "is_kinded ks (condition.Single v) = asks kind.Quants (kind_of ks v)", "is_kinded ks (condition.Single v) = asks kind.Quants (kind_of ks v) || asks kind.Preds (kind_of ks v)"),
        ("Kinds", "and by the first", "is_kinded ks (condition.And c d) = is_kinded ks c && is_kinded ks d", "is_kinded ks (condition.And c d) = is_kinded ks c"),
    ],
    "rule_files::refused_unknown_in_condition": [
        ("Accepted", "conditions aren't looked at", " ++ option_map_or values_of_condition a.condition []", ""),
    ],
    "rule_files::refused_unknown_in_range": [
        ("Accepted", "ranges aren't looked at", "flat_map (λ f. values_of_range f.range) a.ranges ++ ", ""),
    ],
    "rule_files::refused_unknown_star": [
        ("Accepted", "unknown STARs", "list_any (λ r. is_none (star_named rules r.0)) (references_of s)\n      || ", ""),
    ],
    "rule_files::refused_unknown_name": [
        ("Accepted", "unknown names", "\n      || list_any (nat_eq 255) (flat_map variables_in (flat_map values_of_alternative s.alternatives))", ""),
    ],
    "rule_files::refused_star_twice": [
        ("Accepted", "a STAR that is defined twice", "list_any (λ t. nat_lt t.statement s.statement && same_numbers t.name s.name) rules.stars\n      || ", ""),
    ],
    "rule_files::refused_same_names": [
        ("Accepted", "a parameter that is named twice", "|| repeats [] (parameters_of s)\n      ", ""),
    ],
    "rule_files::refused_for_all_twice": [
        ("Accepted", "a for-all name that is named twice", "\n      || list_any (λ a. repeats (parameters_of s) (map (λ f. f.name) a.ranges)) s.alternatives", ""),
    ],
    "rule_files::refused_for_all_name": [
        ("Accepted", "a for-all name apart from the parameters", "repeats (parameters_of s) (map (λ f. f.name) a.ranges)", "repeats [] (map (λ f. f.name) a.ranges)"),
    ],
    "rule_files::refused_formula_twice": [
        ("Accepted", "a formula that is defined twice", "is_formula_twice d = list_any (λ e.", "is_formula_twice d = Rattle.std.specs.Prelude.not true && list_any (λ e."),
    ],
    "rule_files::refused_wrong_count_of_arguments": [
        ("Accepted", "the count of arguments", "list_any (λ r. not (nat_eq (length r.1) (count_of_parameters r.0))) (references_of s)\n      || ", ""),
    ],
    "rule_files::refused_wrong_count": [
        ("Accepted", "the count of the access root's parameters", "|| (is_access_root s && not (nat_eq (length s.params) 2))\n      ", ""),
    ],
    "rule_files::refused_wrong_count_of_join": [
        ("Accepted", "the count of the join root's parameters", "\n      || (is_join_root s && not (nat_eq (length s.params) 3))", ""),
    ],
    "rule_files::refused_wrong_kind_of_argument": [
        ("Accepted", "kinds of arguments", "list_all (λ r. have_kinds ks (option_map_or kinds_of (star_named rules r.0) []) r.1) (references_in body)\n      && ", ""),
    ],
    "rule_files::refused_wrong_kind_in_glue": [
        ("Accepted", "kinds in Glue", "\n      && list_all (λ g. asks kind.Stream (kind_of ks g.0) && asks kind.Preds (kind_of ks g.1)) (glues_in body)", ""),
    ],
    "rule_files::refused_wrong_kind_in_condition": [
        ("Accepted", "kinds of conditions", "option_map_or (is_kinded ls) a.condition true && ", ""),
    ],
    "rule_files::refused_wrong_kind_of_root": [
        ("Accepted", "kinds of the access root's parameters", "\n      || (is_access_root s && not (same_kinds (kinds_of s) (kind.Stream ∷ kind.Preds ∷ [])))", ""),
    ],
    "rule_files::refused_wrong_kind_of_join": [
        ("Accepted", "kinds of the join root's parameters", "\n      || (is_join_root s && not (same_kinds (kinds_of s) (kind.Stream ∷ kind.Stream ∷ kind.Preds ∷ [])))", ""),
    ],
    "rule_files::refused_too_tall": [
        ("Accepted", "a height with one level less", "height_within (suc n) name = 1 +", "height_within (suc n) name = 0 +"),
    ],
    "rule_files::refused_too_wide": [
        ("Accepted", "weights without the alternatives' own", "(weight_within n r.0)) 1 (references_in a.body)", "(weight_within n r.0)) 0 (references_in a.body)"),
    ],
    "rule_files::refused_no_formula": [
        ("Accepted", "operators of bodies need no formulas", "\n      || list_any (λ o. same_flavour f o.0) (flat_map operators_in (flat_map bodies_of rules.stars))", ""),
    ],
    "rule_files::refused_no_rescan": [
        ("Accepted", "a rescan formula isn't needed", " || is_none (formula_of (costs_of rules) f which.Rescan)", ""),
    ],
    "tables::": [
        ("Data", "a sign is no part of an integer", "if nat_eq b 43 then bs else b ∷ bs", "b ∷ bs"),
        ("Data", "no integer below zero", "if nat_eq b 45 then", "if nat_eq b 255 then"),
        ("Data", "spaces behind an integer", "without_spaces bs = reverse (without_leading_spaces (reverse (without_leading_spaces bs)))", "without_spaces bs = without_leading_spaces bs"),
        ("Data", "an integer beyond 63 bits", "at_most 9223372036854775807", "at_most 9223372036854775808"),
        ("Data", "an integer below its range", "at_most 9223372036854775808", "at_most 9223372036854775809"),
        ("Data", "no digits are 0", "digits_spell [] = None", "digits_spell [] = Some 0"),
        ("Data", "the mark stays", "same_numbers (take 3 bytes) (239 ∷ 187 ∷ 191 ∷ [])", "Rattle.std.specs.Prelude.false"),
        ("Data", "a column that stands twice", "if nat_eq (count_by (same_numbers name) header) 1 then position (same_numbers name) header else None", "position (same_numbers name) header"),
        ("Data", "records of any length", "if nat_eq (length record_) fields then all_of (values_at record_ t.columns places) else None", "all_of (values_at record_ t.columns places)"),
        ("Data", "a fault of a later row", "option_and_then (λ x. option_map (λ xs. x ∷ xs) (all_of os)) o", "option_and_then (λ x. Some (x ∷ Rattle.std.specs.Option.unwrap_or (all_of os) [])) o"),
        ("Answers", "texts by their length alone", "bytes_below (b ∷ bs) (d ∷ ds) = nat_lt b d || (nat_eq b d && bytes_below bs ds)", "bytes_below (b ∷ bs) (d ∷ ds) = bytes_below bs ds"),
        ("Answers", "a longer text is below", "bytes_below [] (d ∷ ds) = true", "bytes_below [] (d ∷ ds) = false"),
        ("Answers", "unequal is equal", "comparison_holds cmp.Ne v w = not (is_same v w)", "comparison_holds cmp.Ne v w = is_same v w"),
        ("Answers", "at most is below", "comparison_holds cmp.Le v w = not (is_below w v)", "comparison_holds cmp.Le v w = is_below v w"),
        ("Answers", "at least is above", "comparison_holds cmp.Ge v w = not (is_below v w)", "comparison_holds cmp.Ge v w = is_below w v"),
        ("Answers", "positions out of range", "list_all (λ p. nat_lt p.1 (length (rows_for q data_ p.0))) a", "true"),
        ("Answers", "the order by its first column alone", "is_below v w || (is_same v w && stands_before vs ws)", "is_below v w || stands_before vs ws"),
        ("WellFormed", "names of 65 bytes", "nat_le (length bytes) 64", "nat_le (length bytes) 65"),
        ("WellFormed", "a name that begins with a digit", "is_word (b ∷ bs) = is_letter b && list_all", "is_word (b ∷ bs) = list_all"),
        ("WellFormed", "names that stand twice", "list_all (λ y. not (same x y)) xs && differ same xs", "differ same xs"),
        ("WellFormed", "numbers beyond the greatest", "is_number n = nat_le n top", "is_number n = true"),
    ],
    "values::and_": [
        ("Meaning", "and is or", "holds q b (condition.And c d) = holds q b c && holds q b d", "holds q b (condition.And c d) = holds q b c || holds q b d"),
    ],
    "values::begins_": [
        ("Meaning", "begins turned", "begins (as_cols (meaning q b d)) (as_cols (meaning q b c))", "begins (as_cols (meaning q b c)) (as_cols (meaning q b d))"),
    ],
    "values::between_": [
        ("Meaning", "between may reach outside", "touches s p && touches t p && lies_in (union s t) p", "touches s p && touches t p"),
        ("Meaning", "between need not touch the second", "touches s p && touches t p && lies_in (union s t) p", "touches s p && lies_in (union s t) p"),
    ],
    "values::empty_": [
        ("Meaning", "empty columns aren't empty", "is_empty_value (is.Cols c) = nat_eq (length c) 0", "is_empty_value (is.Cols c) = false"),
    ],
    "values::equalities_": [
        ("Meaning", "an equality within one quantifier joins", "joins c (operand.Column d) = not (nat_eq c.quant.0 d.quant.0)", "joins c (operand.Column d) = true"),
        ("Meaning", "an inequality joins", "is_equal _ = false", "is_equal _ = true"),
        ("Meaning", "a column = constant is an equality", "joins c (operand.Constant v) = false", "joins c (operand.Constant v) = true"),
    ],
    "values::home_": [
        ("Meaning", "home of the last quantifier", "slice_get (members s) 0", "slice_get (Rattle.std.specs.Prelude.reverse (members s)) 0"),
    ],
    "values::indexable_": [
        ("Meaning", "indexable without what touches", "(λ p. touches s p && list_all", "(λ p. list_all"),
        ("Meaning", "indexable by any column", "not (has s c.quant.0) || list_any (same_column c) cols", "true"),
    ],
    "values::indexes_": [
        ("Meaning", "all indexes for each stream", "filter (is_index_on q (as_stream (meaning q b t)).tables)", "filter (λ n. true)"),
    ],
    "values::inside_": [
        ("Meaning", "inside is crossing", "meaning q b (Inside s) = is.Preds (eligible q", "meaning q b (Inside s) = is.Preds (crossing q"),
    ],
    "values::keys_": [
        ("Meaning", "keys of the other side", "find (λ c. has s c.quant.0) (columns_of p)", "find (λ c. not (has s c.quant.0)) (columns_of p)"),
    ],
    "values::members_": [
        ("Meaning", "members of quantifiers from 0", "member_at (range.Members s) n = is.Quants (single n)", "member_at (range.Members s) n = is.Quants n"),
    ],
    "values::minus_": [
        ("Meaning", "minus turned", "meaning q b (Minus v w) = on_sets minus (meaning q b v) (meaning q b w)", "meaning q b (Minus v w) = on_sets minus (meaning q b w) (meaning q b v)"),
    ],
    "values::or_": [
        ("Meaning", "or is the first", "holds q b (condition.Or c d) = holds q b c || holds q b d", "holds q b (condition.Or c d) = holds q b c"),
    ],
    "values::order_": [
        ("Meaning", "a bracket drops the earlier ones", "requiring s (record s.require { order = as_cols (meaning q b c) })", "requiring s (record nothing_required { order = as_cols (meaning q b c) })"),
    ],
    "values::querysite_": [
        ("Meaning", "the query's site is always its home", "site_asked q = unwrap_or q.site (site_of q 0)", "site_asked q = site_of q 0"),
    ],
    "values::same_": [
        ("Meaning", "same columns by a prefix", "begins c d && begins d c", "begins c d"),
    ],
    "values::single_": [
        ("Meaning", "single is at least one", "holds q b (condition.Single v) = nat_eq (size (as_quants (meaning q b v))) 1", "holds q b (condition.Single v) = not (nat_eq (size (as_quants (meaning q b v))) 0)"),
    ],
    "values::temp_": [
        ("Meaning", "a temporary has a path", "requiring s (record s.require { temp = true })", "requiring s (record s.require { temp = true; path = [] })"),
    ],
    "values::within_": [
        ("Meaning", "within turned in conditions", "is_part v w = is_within (as_quants v) (as_quants w)", "is_part v w = is_within (as_quants w) (as_quants v)"),
        ("Meaning", "within turned for predicates", "is_part (is.Preds s) w = is_within s (as_preds w)", "is_part (is.Preds s) w = is_within (as_preds w) s"),
    ],
    "operators::access_heap": [
        ("Operators", "a heap access of several tables", "may_apply q (op.AccessHeap s p) [] = is_single s", "may_apply q (op.AccessHeap s p) [] = true"),
    ],
    "operators::access_index": [
        ("Operators", "an index serves any predicate", "list_all (λ c. list_any (same_column c) (index_columns q s x)) (own_columns q p s)", "true"),
        ("Operators", "an index has all used columns", "cols_after q (op.AccessIndex s x p) ins = stand_in (used q s) (index_columns q s x)", "cols_after q (op.AccessIndex s x p) ins = used q s"),
        ("Operators", "an index access reads the table's pages", "option_map_or (λ i. i.pages) (slice_get q.catalogue.indexes x) 0", "pages_under q s"),
    ],
    "operators::better": [
        ("Vectors", "the order turned", "begins w.order v.order && begins w.path v.path", "begins v.order w.order && begins w.path v.path"),
        ("Vectors", "the path turned", "begins w.order v.order && begins w.path v.path", "begins w.order v.order && begins v.path w.path"),
        ("Vectors", "better without rescan", "nat_le v.cost w.cost && nat_le v.rescan w.rescan", "nat_le v.cost w.cost"),
        ("Vectors", "better at another site", "same_relation v w && nat_eq v.site.0 w.site.0 &&", "same_relation v w &&"),
        ("Vectors", "better without a temporary", "(not w.temp || v.temp)", "true"),
        ("Vectors", "better with other columns", "same_numbers v.cols w.cols && nat_eq v.preds w.preds", "nat_eq v.preds w.preds"),
        ("Vectors", "better with other predicates", "same_numbers v.cols w.cols && nat_eq v.preds w.preds", "same_numbers v.cols w.cols"),
    ],
    "operators::canon": [
        ("Canon", "equal where any comparison holds", "equal_columns s c cmp.Eq (operand.Column d)", "equal_columns s c _ (operand.Column d)"),
        ("Canon", "equalities with other quantifiers", "has s c.quant.0 && has s d.quant.0", "has s c.quant.0 || has s d.quant.0"),
        ("Canon", "the higher column for the lower", "lower c d = if is_lower d c then d else c", "lower c d = if is_lower d c then c else d"),
        ("Canon", "lower by the column's number alone", "is_lower c d = nat_lt c.quant.0 d.quant.0 || (nat_eq c.quant.0 d.quant.0 && nat_lt c.column d.column)", "is_lower c d = nat_lt c.column d.column"),
        ("Canon", "lower by the quantifier's number alone", " || (nat_eq c.quant.0 d.quant.0 && nat_lt c.column d.column)", ""),
        ("Canon", "merges of the pairs as they stand", "with_merge made pair = made ++ (after_merges made pair.0, after_merges made pair.1) ∷ []", "with_merge made pair = made ++ pair ∷ []"),
        ("Canon", "repeats are kept", "distinct (c ∷ cs) = c ∷ filter (λ d. not (same_column c d)) (distinct cs)", "distinct (c ∷ cs) = c ∷ distinct cs"),
    ],
    "operators::chain": [
        ("Plans", "a chain with repeats", "names r o && list_all (differs o) os && is_chain r os", "names r o && is_chain r os"),
        ("Plans", "a chain of anything", "names r o && list_all (differs o) os && is_chain r os", "list_all (differs o) os && is_chain r os"),
        ("Plans", "a path names no STORE", "names r glue.Store = r.temp || not (is_empty_list r.path)", "names r glue.Store = r.temp"),
        ("Plans", "a temporary names no STORE", "names r glue.Store = r.temp || not (is_empty_list r.path)", "names r glue.Store = not (is_empty_list r.path)"),
    ],
    "operators::filter": [
        ("Operators", "FILTER without the columns", "may_apply q (op.Filter p) (e ∷ []) = has_columns_of q p e", "may_apply q (op.Filter p) (e ∷ []) = true"),
    ],
    "operators::get": [
        ("Operators", "GET at another site", "nat_eq e.tables s && same_site e.site (home_of q s)", "nat_eq e.tables s"),
        ("Operators", "GET of another table", "nat_eq e.tables s && same_site e.site (home_of q s)", "same_site e.site (home_of q s)"),
        ("Operators", "GET has its input's columns", "cols_after q (op.Get s p) ins = used q s", "cols_after q (op.Get s p) ins = both_columns ins"),
        ("Operators", "GET reads no rows", "rows_read q (op.Get s p) = rows_under q s", "rows_read q (op.Get s p) = 0"),
    ],
    "operators::join_hash": [
        ("Operators", "JOIN_HASH of tables in common", "is_disjoint v.tables w.tables && same_site v.site w.site && none_touches q v.preds w.tables && none_touches", "same_site v.site w.site && none_touches q v.preds w.tables && none_touches"),
        ("Operators", "JOIN_HASH at two sites", "is_disjoint v.tables w.tables && same_site v.site w.site && none_touches q v.preds w.tables && none_touches", "is_disjoint v.tables w.tables && none_touches q v.preds w.tables && none_touches"),
        ("Operators", "JOIN_HASH with a pushed outer input", "none_touches q v.preds w.tables && none_touches q w.preds v.tables", "none_touches q w.preds v.tables"),
        ("Operators", "JOIN_HASH with a pushed inner input", "none_touches q v.preds w.tables && none_touches q w.preds v.tables", "none_touches q v.preds w.tables"),
        ("Operators", "JOIN_HASH by nothing", "not (nat_eq (size m) 0) && list_all (links v w)", "list_all (links v w)"),
        ("Operators", "JOIN_HASH by any predicates", "list_all (links v w) (preds_in q m)", "true"),
        ("Operators", "a link need not touch the second", "is_equality p && touches v.tables p && touches w.tables p", "is_equality p && touches v.tables p"),
        ("Operators", "JOIN_HASH without the first's columns", "has_columns_of q (union m p) v && has_columns_of q (union m p) w", "has_columns_of q (union m p) w"),
        ("Operators", "JOIN_HASH without the second's columns", "has_columns_of q (union m p) v && has_columns_of q (union m p) w", "has_columns_of q (union m p) v"),
        ("Operators", "JOIN_HASH keeps the order", "sorted_by q (op.JoinHash m p) ins = []", "sorted_by q (op.JoinHash m p) ins = first_order ins"),
        ("Operators", "JOIN_HASH applies M alone", "applied (op.JoinHash m p) = union m p", "applied (op.JoinHash m p) = m"),
    ],
    "operators::join_merge": [
        ("Operators", "JOIN_MERGE of an unsorted outer input", "is_sorted_by q (keys_of q m v.tables) v && is_sorted_by q (keys_of q m w.tables) w", "is_sorted_by q (keys_of q m w.tables) w"),
        ("Operators", "JOIN_MERGE of an unsorted inner input", "is_sorted_by q (keys_of q m v.tables) v && is_sorted_by q (keys_of q m w.tables) w", "is_sorted_by q (keys_of q m v.tables) v"),
        ("Operators", "JOIN_MERGE compares the raw keys", "is_sorted_by q cols v = begins (canon q v.preds v.tables cols) v.order", "is_sorted_by q cols v = begins cols v.order"),
        ("Operators", "JOIN_MERGE applies P alone", "applied (op.JoinMerge m p) = union m p", "applied (op.JoinMerge m p) = p"),
    ],
    "operators::join_nl": [
        ("Operators", "JOIN_NL of tables in common", "is_disjoint v.tables w.tables && same_site v.site w.site && none_touches q v.preds w.tables && has_columns_of q (union p w.preds) v", "same_site v.site w.site && none_touches q v.preds w.tables && has_columns_of q (union p w.preds) v"),
        ("Operators", "JOIN_NL at two sites", "is_disjoint v.tables w.tables && same_site v.site w.site && none_touches q v.preds w.tables && has_columns_of q (union p w.preds) v", "is_disjoint v.tables w.tables && none_touches q v.preds w.tables && has_columns_of q (union p w.preds) v"),
        ("Operators", "JOIN_NL with a pushed outer input", "none_touches q v.preds w.tables && has_columns_of q (union p w.preds) v", "has_columns_of q (union p w.preds) v"),
        ("Operators", "JOIN_NL without the inner predicates' columns", "has_columns_of q (union p w.preds) v && has_columns_of q p w", "has_columns_of q p v && has_columns_of q p w"),
        ("Operators", "JOIN_NL without the inner columns", "has_columns_of q (union p w.preds) v && has_columns_of q p w", "has_columns_of q (union p w.preds) v"),
    ],
    "operators::probe": [
        ("Operators", "PROBE by nothing", "not (is_empty_list c) && begins c e.path && has_columns_of q p e", "begins c e.path && has_columns_of q p e"),
        ("Operators", "PROBE of any path", "not (is_empty_list c) && begins c e.path && has_columns_of q p e", "not (is_empty_list c) && has_columns_of q p e"),
        ("Operators", "PROBE keeps the order", "sorted_by q (op.Probe c p) ins = c", "sorted_by q (op.Probe c p) ins = first_order ins"),
    ],
    "operators::satisfies": [
        ("Requirements", "satisfies compares the order as it stands", "begins (canon q v.preds v.tables r.order) v.order", "begins r.order v.order"),
        ("Requirements", "satisfies ignores the site", "v.order && is_at r.site v.site &&", "v.order &&"),
        ("Requirements", "satisfies ignores the temporary", "(not r.temp || v.temp) && begins r.path v.path", "begins r.path v.path"),
        ("Requirements", "satisfies ignores the path", "(not r.temp || v.temp) && begins r.path v.path", "(not r.temp || v.temp)"),
    ],
    "operators::ship": [
        ("Operators", "SHIP to the same site", "may_apply q (op.Ship s) (e ∷ []) = not (same_site s e.site)", "may_apply q (op.Ship s) (e ∷ []) = true"),
        ("Operators", "SHIP works at the target", "works_at (op.Ship s) ins r = first_site ins", "works_at (op.Ship s) ins r = r.site"),
        ("Operators", "SHIP counts one site's net", "cut_sum (net_at q s) (net_at q (first_site ins))", "net_at q s"),
    ],
    "operators::sort": [
        ("Operators", "SORT by nothing", "not (is_empty_list c) && all_columns_in e.cols c", "all_columns_in e.cols c"),
        ("Operators", "SORT by columns that aren't there", "not (is_empty_list c) && all_columns_in e.cols c", "not (is_empty_list c)"),
    ],
    "operators::store": [
        ("Operators", "STORE of what reaches outside", "none_reaches_outside q e.preds e.tables && all_columns_in e.cols c", "all_columns_in e.cols c"),
        ("Operators", "STORE with a path that isn't there", "none_reaches_outside q e.preds e.tables && all_columns_in e.cols c", "none_reaches_outside q e.preds e.tables"),
        ("Operators", "STORE has no path", "path_after (op.Store c) = c", "path_after (op.Store c) = []"),
    ],
    "operators::target": [
        ("Goals", "a target without columns", "same_numbers v.cols (used q tables) && ", ""),
        ("Goals", "a target without predicates", " && nat_eq v.preds (union (eligible q tables) pushed)", ""),
        ("Goals", "a target without what is pushed", "nat_eq v.preds (union (eligible q tables) pushed)", "nat_eq v.preds (eligible q tables)"),
    ],
    "plans::split_with_empty_part": [
        ("Expected", "a split with an empty part", " && not (nat_eq p.0 0) && not (nat_eq p.1 0)", ""),
    ],
    "plans::split_with_overlap": [
        ("Expected", "a split with parts in common", "nat_eq (meet p.0 p.1) 0 && not (nat_eq p.0 0)", "not (nat_eq p.0 0)"),
    ],
    "plans::split_of_less": [
        ("Expected", "a split of less", "nat_eq (union p.0 p.1) s && ", ""),
    ],
    "plans::no_split": [
        ("Expected", "a goal of several without a split", "may_split s None = nat_eq (size s) 1", "may_split s None = true"),
    ],
    "plans::goal_without_pushed": [
        ("Expected", "another goal than is asked", "nat_eq g.tables s && nat_eq g.pushed j && may_split s split", "nat_eq g.tables s && may_split s split"),
    ],
    "plans::false_condition": [
        ("Expected", "a condition isn't judged", "if meets q c a.condition then Some (Expression a.body c) else None", "Some (Expression a.body c)"),
    ],
    "plans::index_out_of_range": [
        ("Expected", "any value of a for-all", "not (nat_eq n 0) && list_any (nat_eq (n - 1)) (numbers_of q b f.range)", "true"),
    ],
    "plans::other_star": [
        ("Expected", "another STAR than is referred to", "if same_numbers star call.0 then", "if true then"),
    ],
    "plans::other_access": [
        ("Expected", "another operator of no input", "leaf_of f (expr.Leaf g args) = if same_flavour f g then", "leaf_of f (expr.Leaf g args) = if true then"),
    ],
    "plans::other_operator": [
        ("Expected", "another operator of one input", "unary_of f (expr.Unary g args e) = if same_flavour f g then", "unary_of f (expr.Unary g args e) = if true then"),
    ],
    "plans::other_join": [
        ("Expected", "another operator of two inputs", "binary_of f (expr.Binary g args d e) = if same_flavour f g then", "binary_of f (expr.Binary g args d e) = if true then"),
    ],
    "plans::not_shipped": [
        ("Expected", "the root requires no site", "root_requirement q = record { order = q.order; site = q.site;", "root_requirement q = record { order = q.order; site = None;"),
    ],
    "plans::unsorted_input": [
        ("Judging", "a Glue isn't held to its requirement", "(option_and_then (only_if (λ w. satisfies q w g.0)) (chain_vector q (costs_of rules) g.0 chain v))", "(chain_vector q (costs_of rules) g.0 chain v)"),
    ],
    "plans::predicate_missing": [
        ("Judging", "a goal isn't held to its target", "vector_or n (only_if (is_target q g.tables g.pushed) v)", "Vector v"),
    ],
}

# changes that may disturb all
ALONE = {
    "values::within": [
        ("Sets", "within turned", "not (has s n) || has t n", "not (has t n) || has s n"),
    ],
    "values::meet": [
        ("Sets", "meet is union", "meet s t = bit_and s t", "meet s t = bit_or s t"),
    ],
    "values::minus": [
        ("Sets", "minus keeps all", "minus s t = bit_and s (bit_not w32 t)", "minus s t = s"),
    ],
    "values::members": [
        ("Sets", "the set of one number is the number", "single n = 2 ^ n", "single n = n"),
    ],
    "values::": [
        ("Predicates", "the right side's column isn't touched", "columns_of_operand (Column c) = c ∷ []", "columns_of_operand (Column c) = []"),
    ],
    "values::crossing": [
        ("Predicates", "lying inside is touching", "lies_in s p = list_all (λ c. has s c.quant.0) (columns_of p)", "lies_in s p = list_any (λ c. has s c.quant.0) (columns_of p)"),
        ("Predicates", "crossing has those that lie inside", "touches s p && not (lies_in s p)", "touches s p"),
        ("Predicates", "crossing has those that don't touch", "touches s p && not (lies_in s p)", "not (lies_in s p)"),
    ],
    "operators::target": [
        ("Predicates", "used without the order", "q.select ++ q.order ++ flat_map columns_of q.preds", "q.select ++ flat_map columns_of q.preds"),
        ("Predicates", "used without the predicates", "q.select ++ q.order ++ flat_map columns_of q.preds", "q.select ++ q.order"),
    ],
    "operators::card": [
        ("Cardinality", "column = column by the left side alone", "equal_in q c (Column d) = max 1 (max (distinct_of q c) (distinct_of q d))", "equal_in q c (Column d) = max 1 (distinct_of q c)"),
        ("Cardinality", "column = column by the lesser", "max 1 (max (distinct_of q c) (distinct_of q d))", "max 1 (Rattle.std.specs.Prelude.min (distinct_of q c) (distinct_of q d))"),
        ("Cardinality", "an inequality is one in two", "one_in q c _ right = 3", "one_in q c _ right = 2"),
        ("Cardinality", "unequal is one in three", "one_in q c cmp.Ne right = 1", "one_in q c cmp.Ne right = 3"),
        ("Cardinality", "predicates whose first quantifier is this one", "list_all (λ m. nat_le m n) inside", "list_all (λ m. nat_le n m) inside"),
        ("Cardinality", "the walk starts at 0", "(rows_of q quant))) 1 (members s)", "(rows_of q quant))) 0 (members s)"),
    ],
    "values::keys": [
        ("Vectors", "one column in place of another", "nat_eq c.quant.0 d.quant.0 && nat_eq c.column d.column", "nat_eq c.column d.column"),
    ],
    "values::union": [
        ("Meaning", "union of predicates is a set of quantifiers", "on_sets f (is.Preds s) w = is.Preds (f s (as_preds w))", "on_sets f (is.Preds s) w = is.Quants (f s (as_preds w))"),
    ],
    "operators::": [
        ("Operators", "predicates need not touch the result", "if may_apply q o ins && each_touches q o ins then", "if may_apply q o ins then"),
        ("Operators", "width of the result is that of the input", "width = width_of q r.cols;", "width = width_of q e.cols;"),
        ("Operators", "rescan costs as the first", "(formula_of costs (flavour_of o) which.Rescan)", "(formula_of costs (flavour_of o) which.Cost)"),
    ],
    "rule_files::": [
        ("Accepted", "values of inputs aren't looked at", "values_in (expr.Unary f args e) = args ++ values_in e", "values_in (expr.Unary f args e) = args"),
        ("Accepted", "references of the second input aren't looked at", "references_in (expr.Binary f args d e) = references_in d ++ references_in e", "references_in (expr.Binary f args d e) = references_in d"),
        ("Accepted", "SORT isn't used by Glue", "(flavour.Sort ∷ flavour.Store ∷ flavour.Ship ∷ [])", "(flavour.Store ∷ flavour.Ship ∷ [])"),
    ],
    "plans::": [
        ("Expected", "the sets of a hash join exchanged", "operator_of flavour.JoinHash vs = op.JoinHash (as_preds (at_index vs 0)) (as_preds (at_index vs 1))", "operator_of flavour.JoinHash vs = op.JoinHash (as_preds (at_index vs 1)) (as_preds (at_index vs 0))"),
        ("Expected", "the root requires nothing", "root_requirement q = record { order = q.order; site = q.site;", "root_requirement q = record { order = []; site = None;"),
        ("Plans", "the chain from the other end", "option_and_then (chain_vector q costs r os) (step q costs (op_of r o) (v ∷ []))", "option_and_then (λ w. step q costs (op_of r o) (w ∷ [])) (chain_vector q costs r os v)"),
        ("Expected", "a goal keeps all predicates", "ForGoal s (meet preds (crossing q s))", "ForGoal s preds"),
        ("Expected", "the parts of a split exchanged", "(plain p.0 ∷ plain p.1 ∷ is.Preds j ∷ [])", "(plain p.1 ∷ plain p.0 ∷ is.Preds j ∷ [])"),
        ("Expected", "the root requires no order", "root_requirement q = record { order = q.order; site = q.site;", "root_requirement q = record { order = []; site = q.site;"),
        ("Stars", "alternatives from 0", "if nat_eq n 0 then None else slice_get xs (n - 1)", "slice_get xs n"),
        ("Judging", "nodes of a second input from the first's number", "(judge e y.2 (n + 1 + node_count d))", "(judge e y.2 (n + 1))"),
    ],
}
