# Formulas in LaTeX: names as text, lines that fit, and a document that compiles.
library(causal)
own <- function(name) getFromNamespace(name, "causal")
same <- function(a, b) stopifnot(identical(a, b))
odd <- "a_%&#$~^{b}\\"
names <- paste0("confounder ", 1:10)
diagrams <- list(
  identify_effect("dag { \"age group (years)\" -> \"d\u00e9c\u00e8s \u00e0 30 jours\" x_1 -> \"d\u00e9c\u00e8s \u00e0 30 jours\" \"age group (years)\" -> x_1 }", "x_1", "d\u00e9c\u00e8s \u00e0 30 jours"),
  identify_effect("dag { W -> Z -> X -> Y W <-> X W <-> Y }", "X", "Y"),
  identify_effect("dag { X -> M -> Y X <-> Y }", "X", "Y"),
  identify_effect(paste0("dag { \"", odd, "\" -> Y }"), odd, "Y"),
  identify_effect(paste("dag { statin [exposure] infarction [outcome] statin -> infarction", paste0('"', names, '" -> statin "', names, '" -> infarction', collapse = " "), "}")),
  identify_effect(paste("dag { statin [exposure] infarction [outcome] statin -> infarction", paste0('"', names, '" -> statin "', names, '" -> infarction', collapse = " "), "}"), short = TRUE),
  identify_effect(paste("dag { statin [exposure] infarction [outcome] statin -> pressure -> infarction statin <-> infarction", paste0('"', names, '" -> statin "', names, '" -> infarction "', names, '" -> pressure', collapse = " "), "}"), short = TRUE),
  identify_effect("dag { X -> Y -> Z }", "X", "Y", given = "Z"),
  surrogate("dag { X [exposure] Y [outcome] Z -> X -> Y Z <-> X Z <-> Y }", experiments = "Z"))
lines <- lapply(diagrams, toLatex)
stopifnot(grepl("\\text{d\u00e9c\u00e8s \u00e0 30 jours}", lines[[1]][3], fixed = TRUE), grepl("P(\\text{age group (years)})", paste(lines[[1]], collapse = ""), fixed = TRUE))
same(unclass(lines[[2]])[3:4], c("P(Y \\mid \\mathrm{do}(X)) &= \\frac{q_{0}}{\\sum_{Y} q_{0}} \\\\", "q_{0} &= \\sum_{W} P(W) P(X \\mid W, Z) P(Y \\mid W, Z, X)"))
stopifnot(!any(grepl("free", unlist(lines))))
same(class(lines[[1]]), "Latex")

# Within a sentence knitr gets no displayed formula
within <- own("knit_methods")$causal_formula(diagrams[[2]], inline = TRUE)
stopifnot(inherits(within, "knit_asis"), startsWith(within, "$P(Y"), !grepl("$$", within, fixed = TRUE), !grepl("\n", within, fixed = TRUE))

if (nzchar(Sys.which("pdflatex"))) {
  here <- tempfile()
  dir.create(here)
  text <- c("\\documentclass{article}", "\\usepackage[utf8]{inputenc}", "\\usepackage[T1]{fontenc}", "\\usepackage{amsmath}", "\\begin{document}",
            unlist(lines), paste("Within a sentence", within, "stands."), "\\end{document}")
  writeLines(enc2utf8(text), file.path(here, "formulas.tex"), useBytes = TRUE)
  old <- setwd(here)
  log <- suppressWarnings(system2("pdflatex", c("-interaction=nonstopmode", "formulas.tex"), stdout = TRUE, stderr = FALSE))
  setwd(old)
  if (!file.exists(file.path(here, "formulas.pdf")) || any(grepl("^!|^Overfull", log))) stop(paste(log, collapse = "\n"))
} else cat("skipped: latex: no pdflatex\n")
