# Refusals as conditions: the fault's number, its sentence, its place, and the line of the text with a caret. All but the caret
# comes from the object that the library writes of a fault.

plain_sentences <- c(
  words = "the library does not understand the words of the question",
  read = "the words name an input that is not there",
  memory = "memory was refused",
  text = "a word is not UTF-8"
)

# The condition of an answer whose status is 2 or more; from 3 to 5 it has an object.
causal_fault <- function(answer, inputs) {
  line <- sub("\n$", "", answer$err)
  if (!answer$status %in% 3:5) return(plain_fault(answer$status, line))
  told <- object_of(answer)$fault
  fault <- list(stage = sub("^second ", "", told$stage), second = startsWith(told$stage, "second "),
                number = as.integer(told$number), sentence = told$message, printed = line, status = answer$status)
  text <- inputs[[if (fault$second) "other" else "diagram"]]
  fault <- c(fault, place_of(told, text))
  if (fault$stage == "graph") fault$sentence <- named_sentence(fault, text)
  new_fault(fault, sentence_text(fault))
}

# Other kinds of texts, by the word with which they begin.
other_kinds <- c(
  pdag = "the text is a pdag, which stands for several diagrams; give one of them, as a dag",
  mag = "the text is a mag, whose edges say less than those of a dag; a dag is read",
  pag = "the text is a pag, which stands for several diagrams; a dag is read",
  graph = "the text is a graph without directions; a dag is read",
  digraph = "the text is DOT, as Graphviz has it; it is read with format = \"dot\""
)

# What a fault of a diagram's text says. A comment, and a text of another kind, are named.
named_sentence <- function(fault, text) {
  bytes <- as_bytes(text)
  if (fault$number == 2 && !is.null(fault$byte)) {
    here <- as_text(bytes[fault$byte + seq_len(min(2, length(bytes) - fault$byte))])
    if (grepl("^(//|/[*]|#)", here)) return("a comment stands here, and comments are not read")
  }
  word <- if (fault$number == 4) all_of("^[A-Za-z]+", sub("^strict[ \t\r\n]+", "", trimws(as_text(bytes))))
  kind <- other_kinds[tolower(word)]
  if (length(kind) && !is.na(kind)) unname(kind) else fault$sentence
}

plain_fault <- function(status, line) {
  stage <- switch(as.character(status), "2" = "words", "6" = "read", "9" = "text", "memory")
  sentence <- plain_sentences[[stage]]
  fault <- list(stage = stage, second = FALSE, number = NA_integer_, sentence = sentence, printed = line, status = status)
  new_fault(fault, sentence)
}

# A fault that says more.
retold <- function(fault, ...) {
  fault$message <- paste0(fault$message, ...)
  fault
}

new_fault <- function(fault, message) {
  class <- c(paste0("causal_", fault$stage, "_fault"), "causal_fault", "causal_refusal", "error", "condition")
  structure(class = class, c(list(message = message, call = NULL), fault))
}

# Where a fault is: `names`, a `byte` of the text with its line and column, a `row`, a `key`, a node of the formula and a `cell`.
place_of <- function(told, text) {
  place <- told[names(told) %in% c("byte", "line", "column", "row", "node")]
  for (key in intersect(c("key", "version"), names(told))) place[[key]] <- text_in(told[[key]])
  names <- if (is.null(told[["name"]])) told$names else list(told[["name"]])
  if (length(names)) place$names <- texts(names)
  if (!is.null(told$line)) place$caret <- caret_at(text, told$line, told$column)
  if (!is.null(told$node)) place$expression <- if (is.null(told$definition)) "main" else paste0("q", told$definition)
  if (!is.null(told$cell)) place$cell <- read_levels(told$cell)
  place
}

# A line of a text with a caret below it.
caret_at <- function(text, line, column) {
  bytes <- as_bytes(text)
  feeds <- c(0, which(bytes == charToRaw("\n")), length(bytes) + 1)
  shown <- as_text(bytes[seq_len(feeds[line + 1] - feeds[line] - 1) + feeds[line]])
  before <- strsplit(substring(shown, 1, column - 1), "")[[1]]
  blank <- paste(ifelse(before == "\t", "\t", strrep(" ", nchar(before, type = "width"))), collapse = "")
  paste0(shown, "\n", blank, "^")
}

sentence_text <- function(fault) {
  kind <- paste0(if (fault$second) "second ", fault$stage, " fault ", fault$number)
  where <- c(
    if (length(fault$names)) paste0(": ", paste(fault$names, collapse = if (fault$stage == "graph") " -> " else ", ")),
    if (!is.null(fault$key)) paste0(": ", fault$key),
    if (!is.null(fault$version)) paste0(": ", fault$version),
    if (!is.null(fault$row)) paste0(": row ", fault$row),
    if (!is.null(fault$line)) paste0(", at line ", fault$line, ", column ", fault$column),
    cell_text(fault)
  )
  paste0(kind, ": ", fault$sentence, paste(where, collapse = ""),
         if (!is.null(fault$caret)) paste0("\n  ", gsub("\n", "\n  ", fault$caret)))
}

cell_text <- function(fault) {
  at <- if (is.null(fault$condition)) fault$cell else fault$condition
  if (!is.null(at)) paste0(": ", fault$expression, " node ", fault$node, " at ", paste0(names(at), "=", printed_level(as.character(at)), collapse = ", "))
}
