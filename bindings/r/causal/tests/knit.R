# Answers in documents of knitr.
library(causal)
own <- function(name) getFromNamespace(name, "causal")
same <- function(a, b) stopifnot(identical(a, b))
stones <- causal_diagram("dag { T [exposure] R [outcome] S -> T S -> R T -> R }")
methods <- own("knit_methods")

shown <- methods$causal_formula(identify_effect(stones))
stopifnot(inherits(shown, "knit_asis"), grepl("$$\n\\begin{aligned}\nP(R \\mid \\mathrm{do}(T)) &= ", shown, fixed = TRUE))
napkin <- identify_effect("dag { W -> Z -> X -> Y W <-> X W <-> Y }", "X", "Y")
stopifnot(grepl("\\\\\n", methods$causal_formula(napkin), fixed = TRUE), grepl("Free: Z.", methods$causal_formula(napkin), fixed = TRUE))
surrogate <- surrogate("dag { X [exposure] Y [outcome] Z -> X -> Y Z <-> X Z <-> Y }", experiments = "Z")
stopifnot(grepl("P(Y \\mid \\mathrm{do}(X)) &= P(Y \\mid \\mathrm{do}(Z), X)", methods$causal_formula(surrogate), fixed = TRUE))
stopifnot(grepl("```\ncausal diagram of 3 vertices\ndag {", methods$causal_diagram(stones), fixed = TRUE))
stopifnot(grepl("not separated: {T} from {S} given {}", methods$causal_answer(separated(stones, "T", "S")), fixed = TRUE))
stopifnot(grepl("```\nZ given {}\n```", methods$causal_answer(instruments("dag { Z -> X -> Y X <-> Y }", "X", "Y")), fixed = TRUE))

table <- strsplit(methods$causal_contrast(contrast(stones, kidney_stones, treated = "A", control = "B", count = "count", resamples = 9, seed = 1)), "\n")[[1]]
stopifnot(startsWith(table[2], "| R | treated | control | measure | estimate |"), table[3] == paste0("|", strrep("---|", 8)))
stopifnot(startsWith(table[4], "| success | A | B | risk_treated | 0.8325 |"), any(grepl("^95% percentile intervals", table)))
table <- methods$causal_implications(implications("dag { \"a|b\" -> B -> C }"))
stopifnot(grepl("| a\\|b | C | {B} |", table, fixed = TRUE))

# Where knitr is there, its generic finds them, whether it was loaded before or is only now
if (nzchar(system.file(package = "knitr"))) {
  knit_print <- getExportedValue("knitr", "knit_print")
  same(class(knit_print(identify_effect(stones))), "knit_asis")
  shown <- knit_print(evaluate(stones, kidney_stones, count = "count"))
  stopifnot(grepl("| A | success | 0.8325 |", shown, fixed = TRUE))
}
