# Refusals of the package, as conditions: all have the class `causal_refusal`, and what the library refuses `causal_fault` too (see
# faults.R). Names that aren't known are told with those that are meant.

# Refuses what was asked, with a sentence; `kind` is the class of the refusal after `causal_`, and what is told beside it is named.
refuse <- function(..., kind = "argument", told = list()) {
  stop(structure(class = c(paste0("causal_", kind), "causal_refusal", "error", "condition"), c(list(message = paste0(...), call = NULL), told)))
}

# A warning of what is done, but may not be what was meant.
doubt <- function(...) {
  warning(structure(class = c("causal_doubt", "warning", "condition"), list(message = paste0(...), call = NULL)))
}

# An old name, which has another word now.
old_word <- function(old, new) .Deprecated(msg = paste0("`", old, "` has the word `", new, "` now; the old word goes with the next version"))

# A name that is among those that are there but for its capital letters, its spaces or two of its characters; "" where none is.
meant <- function(name, among) {
  if (is.na(name)) return("")
  among <- unique(as.character(among))
  plain <- function(text) tolower(gsub("[[:space:]._-]+", "", text))
  found <- among[plain(among) == plain(name)]
  if (!length(found) && length(among)) {
    apart <- drop(utils::adist(name, among, ignore.case = TRUE))
    if (min(apart) <= min(2, (nchar(name) - 1) / 2)) found <- among[which.min(apart)]
  }
  if (length(found)) paste0("; did you mean ", if (grepl("^\\s|\\s$", found[1])) paste0('"', found[1], '"') else found[1], "?") else ""
}

# Whether a word is one of those that are there.
check_word <- function(argument, word, words) {
  if (!is.character(word) || length(word) != 1 || !word %in% words)
    refuse("`", argument, "` is ", paste0('"', words, '"', collapse = ", "), ", and not ", paste0('"', as.character(word), '"', collapse = ", "),
           if (length(word) == 1) meant(word, words))
}

check_flag <- function(argument, value) if (!isTRUE(value) && !isFALSE(value)) refuse("`", argument, "` is TRUE or FALSE")

check_whole <- function(argument, value, least, most = Inf) {
  if (!is.numeric(value) || length(value) != 1 || !isTRUE(value >= least && value <= most && value == round(value)))
    refuse("`", argument, "` is a whole number from ", least, if (is.finite(most)) paste(" to", most))
}

# Some names of which a message tells the first ones.
listed <- function(names, most = 12) {
  names <- as.character(names)
  more <- length(names) - most
  paste0(paste(utils::head(names, most), collapse = ", "), if (more > 0) paste(" and", counted(more, "more", "more")))
}

# Refuses a level that the data don't have.
no_level <- function(name, level, labels) {
  refuse(name, " has no level ", level, " in the data; it has ", listed(labels), meant(level, labels), kind = "unknown_level",
         told = list(name = name, level = level))
}

# One of the words of an argument of the calling function, of which the first is the default.
one_of <- function(word) {
  argument <- as.character(substitute(word))
  words <- eval(formals(sys.function(sys.parent()))[[argument]], parent.frame())
  if (identical(word, words)) return(words[1])
  check_word(argument, word, words)
  word
}
