# Formulas in LaTeX, by their trees. A name of one letter is set as such, each other one as text; lines that are too wide are broken.

latex_signs <- c("\\" = "\\textbackslash{}", "{" = "\\{", "}" = "\\}", "_" = "\\_", "%" = "\\%", "&" = "\\&", "#" = "\\#", "$" = "\\$",
                 "~" = "\\textasciitilde{}", "^" = "\\textasciicircum{}")

latex_escaped <- function(texts) {
  vapply(strsplit(enc2utf8(as.character(texts)), ""), function(signs) {
    known <- signs %in% names(latex_signs)
    signs[known] <- latex_signs[signs[known]]
    paste(signs, collapse = "")
  }, "")
}

latex_name <- function(names) ifelse(grepl("^[A-Za-z]$", names), names, paste0("\\text{", latex_escaped(names), "}"))

latex_names <- function(names) paste(latex_name(names), collapse = ", ")

latex_term <- function(of, do = character(), given = character()) {
  behind <- c(if (length(do)) paste0("\\mathrm{do}(", latex_names(do), ")"), if (length(given)) latex_names(given))
  paste0("P(", latex_names(of), if (length(behind)) paste0(" \\mid ", paste(behind, collapse = ", ")), ")")
}

# Names in lines of some letters.
names_in_lines <- function(names, width) {
  pieces <- paste0(latex_name(names), ifelse(seq_along(names) < length(names), ",", ""))
  latex_lines(pieces, width)
}

latex_sum <- function(names) {
  lines <- names_in_lines(names, 30)
  paste0("\\sum_{", if (length(lines) > 1) paste0("\\substack{", paste(lines, collapse = " \\\\ "), "}") else lines, "} ")
}

# A term, in pieces where it is long.
term_pieces <- function(of, do, given) {
  whole <- latex_term(of, do, given)
  if (latex_width(whole) <= 50) return(whole)
  pieces <- names_in_lines(of, 40)
  last <- length(pieces)
  if (length(do) || length(given)) {
    done <- if (length(do)) paste0(" \\mathrm{do}(", latex_names(do), ")", if (length(given)) ",")
    pieces[last] <- paste0(pieces[last], " \\mid", done)
    if (length(given)) pieces <- c(pieces, names_in_lines(given, 40))
  }
  pieces[1] <- paste0("P(", pieces[1])
  replace(pieces, length(pieces), paste0(pieces[length(pieces)], ")"))
}

# The pieces of a tree, between which a line may be broken.
latex_pieces <- function(tree) {
  if (!is.null(tree$definition)) return(paste0("q_{", tree$definition, "}"))
  if (!is.null(tree$term)) return(term_pieces(texts(tree$term), texts(tree$do), texts(tree$given)))
  if (!is.null(tree$quotient)) return(paste0("\\frac{", latex_line(tree$quotient[[1]]), "}{", latex_line(tree$quotient[[2]]), "}"))
  if (!is.null(tree$sum)) {
    inner <- latex_pieces(tree$of)
    inner[1] <- paste0(latex_sum(texts(tree$sum)), inner[1])
    return(inner)
  }
  if (!length(tree$product)) return("1")
  unlist(lapply(seq_along(tree$product), function(k) {
    part <- latex_pieces(tree$product[[k]])
    if (!is.null(tree$product[[k]]$sum) && k < length(tree$product) || !is.null(tree$product[[k]]$sum) && length(tree$product) > 1) {
      part[1] <- paste0("\\bigl( ", part[1])
      part[length(part)] <- paste0(part[length(part)], " \\bigr)")
    }
    part
  }))
}

latex_line <- function(tree) paste(latex_pieces(tree), collapse = " ")

# About how wide a piece is set, in letters.
latex_width <- function(pieces) nchar(gsub("\\\\substack[{].*?[}]{3}|\\\\[A-Za-z]+|[{}]", "", pieces, perl = TRUE))

# Pieces in lines of at most some letters.
latex_lines <- function(pieces, width, used = 0) {
  lines <- character()
  at <- ""
  for (piece in pieces) {
    if ((nzchar(at) || used > 0 && !length(lines)) && latex_width(at) + latex_width(piece) > width - if (length(lines)) 0 else used) {
      lines <- c(lines, at)
      at <- piece
    } else at <- trimws(paste(at, piece))
  }
  c(lines, at)
}

# The equations of a formula: the effect, then the definitions, as lines of an environment `aligned`: at the signs of equality, or where some
# equation has more lines at the left.
latex_equations <- function(formula, width = 55) {
  trees <- formula$trees
  last <- length(trees)
  left <- c(latex_term(formula$parts$y, formula$parts$x, formula$parts$given), paste0("q_{", seq_len(last - 1) - 1, "}", recycle0 = TRUE))
  sides <- mapply(function(left, tree) latex_lines(latex_pieces(tree), width, latex_width(left)), left, trees[c(last, seq_len(last - 1))], SIMPLIFY = FALSE)
  rows <- if (all(lengths(sides) == 1)) paste0(left, " &= ", unlist(sides))
          else unlist(Map(function(left, lines) c(trimws(paste0("&", left, " = ", lines[1]), "right"), paste0("&\\quad ", lines[-1], recycle0 = TRUE)), left, sides))
  rows <- unname(rows)
  c("\\begin{aligned}", paste0(rows, ifelse(seq_along(rows) < length(rows), " \\\\", "")), "\\end{aligned}")
}

# The formula on one line, for the middle of a sentence.
latex_inline <- function(formula) {
  last <- length(formula$trees)
  parts <- c(latex_term(formula$parts$y, formula$parts$x, formula$parts$given), latex_line(formula$trees[[last]]))
  where <- if (last > 1) paste0(",\\ ", paste0("q_{", seq_len(last - 1) - 1, "} = ", vapply(formula$trees[-last], latex_line, ""), collapse = ",\\ "))
  paste0("$", paste(parts, collapse = " = "), where, "$")
}

toLatex.causal_formula <- function(object, width = 55, ...) {
  structure(c("\\[", latex_equations(object, width), "\\]"), class = "Latex")
}
