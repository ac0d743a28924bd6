# Tables of counts. The levels of each column are numbered, so that no level of the data has to be read back from text.

# What a command of the library answers over a text of counts.
ask_counts <- function(diagram, words, text, hand_back = integer(), command = "evaluate") {
  ask(command, diagram, c("counts", words), list(counts = text), hand_back)
}

# The same over a table, with what its levels are where there are too many combinations of them.
ask_table <- function(diagram, words, table, command = "evaluate", hand_back = integer()) {
  told <- ask_counts(diagram, words, counts_text(table), c(hand_back, 4L), command)
  if (told$status != 4) return(told)
  fault <- causal_fault(told, list(diagram = diagram$text))
  if (fault$number == 5) {
    sizes <- lengths(table$levels)
    fault <- retold(fault, ": ", listed(paste(names(sizes), sizes)[order(-sizes)]), " levels. What may help: another `set` of adjustment_sets(), fewer classes; ",
                    "estimate() needs no combinations over a set")
  }
  stop(fault)
}

# The columns that the answer needs, by the library's own words: it names the first one that a header lacks. NULL where it reads
# no counts.
used_columns <- function(diagram, words, command) {
  used <- character()
  repeat {
    told <- ask_counts(diagram, words, csv_line(used), hand_back = 4, command)
    if (told$status != 4) return(NULL)
    fault <- causal_fault(told, list(diagram = diagram$text))
    if (fault$number != 2) return(used)
    used <- c(used, fault$names)
  }
}

csv_line <- function(fields) paste0('"', gsub('"', '""', fields, fixed = TRUE), '"', collapse = ",", recycle0 = TRUE)

# A table of the rows of a data frame that differ in the used columns, with their counts. `keeps` names variables that keep declared
# levels without a record; `design` has the names of columns of weights, clusters and strata; `of` the columns, where no formula tells
# them.
count_table <- function(diagram, words, data, count, missing, command = "evaluate", keeps = character(), design = NULL,
                        of = NULL) {
  named_count <- count
  if (inherits(data, "table")) {
    count <- utils::tail(make.unique(c(names(dimnames(data)), "count")), 1)
    data <- as.data.frame(data, responseName = count, stringsAsFactors = TRUE)
  }
  is_remote <- inherits(data, "causal_table") || is_lazy(data)
  if (!is.data.frame(data) && !is_remote) refuse("`data` has to be a data frame, a table, a lazy table of dplyr, or what `database_table` gives")
  check_count_name(count)
  used <- if (is.null(of)) used_columns(diagram, words, command) else enc2utf8(of)
  if (is.null(used)) return(NULL)
  if (!is.null(count)) refuse_used(enc2utf8(count), used)
  if (is.null(of)) check_header(diagram, words, header_of(data), count, command) else check_columns(header_of(data), c(used, count))
  check_design(design, data, used, count, is_remote)
  if (is_remote) {
    data <- if (is_lazy(data)) fetch_lazy_counts(data, used, count) else fetch_counts(data, used, count)
    count <- names(data)[ncol(data)]
  }
  columns <- lapply(stats::setNames(used, used), function(name) data[[match(name, enc2utf8(names(data)))]])
  if (!all(vapply(columns, is_plain, NA))) refuse("a column that the answer needs is no vector")
  records <- if (is.null(count)) rep(1, nrow(data)) else check_counts(data[[match(count, names(data))]])
  if (!is.null(named_count) && !is_remote) doubt_weights(data, count, records)
  survey <- design_columns(design, data)
  is_whole <- complete_rows(c(columns, survey), missing, records, names(columns))
  columns <- lapply(columns, `[`, is_whole)
  levels <- mapply(levels_of, columns, names(columns) %in% keeps, SIMPLIFY = FALSE)
  codes <- mapply(match_levels, columns, levels, SIMPLIFY = FALSE)
  key <- row_keys(codes, lengths(levels))
  first <- !duplicated(key)
  survey <- lapply(survey, `[`, is_whole)
  weights <- if (is.null(survey$weights)) records[is_whole] else whole_weights(survey$weights)
  of_rows <- lapply(codes, `[`, first)
  structure(list(names = used, levels = levels, codes = do.call(cbind, of_rows), rows = do.call(paste, c(of_rows, list(sep = ","))),
                 counts = sums_of(weights, key), records = sums_of(records[is_whole], key), survey = if (length(survey)) c(list(row = key), survey),
                 dropped = sum(records[!is_whole]), lacking = attr(is_whole, "lacking"), frequencies = named_count),
            class = "causal_counts")
}

# Which rows are the same: their numbers, in order of first appearance.
row_keys <- function(codes, sizes) {
  key <- rep(1, length(codes[[1]]))
  for (k in seq_along(codes)) {
    wide <- key * sizes[[k]] + codes[[k]]
    key <- match(wide, unique(wide))
  }
  key
}

sums_of <- function(numbers, key) if (length(key)) as.vector(rowsum(numbers, key, reorder = FALSE)) else numeric()

# Frequencies of a table stand in rows that differ. Where most rows are alike in all else, each is likely a record with its weight.
doubt_weights <- function(data, count, records) {
  others <- data[setdiff(names(data), count)]
  if (nrow(data) < 20 || nrow(data) > 1e6 || !all(vapply(others, is_plain, NA)) || length(unique(records)) < 3) return(invisible())
  alike <- sum(duplicated(others))
  if (alike > nrow(data) / 2)
    doubt(count, " holds frequencies, so that ", nrow(data), " rows stand for ", format(sum(records), big.mark = ",", scientific = FALSE),
          " records; but ", alike, " rows are like another in all else: weights of a survey are given as `weights`")
}

check_count_name <- function(count) {
  if (!is.null(count) && (!is.character(count) || length(count) != 1 || is.na(count))) refuse("`count` is the name of one column")
}

refuse_used <- function(count, used) {
  if (count %in% used) refuse("the column ", count, " can't hold the counts: it is a variable that the answer needs")
}

# The library refuses a header that lacks a column, or has one twice.
check_header <- function(diagram, words, header, count, command) {
  words <- if (is.null(count)) words else c(words, paste0("--count=", count))
  told <- ask_counts(diagram, words, csv_line(enc2utf8(header)), hand_back = 4, command)
  fault <- causal_fault(told, list(diagram = diagram$text))
  if (fault$number == 2) fault <- retold(fault, "; the columns are ", listed(header), meant(fault$names, header))
  if (fault$number %in% 2:3) stop(fault)
}

# The same for columns that the caller names.
check_columns <- function(header, names) {
  header <- enc2utf8(header)
  for (name in enc2utf8(names)) if (sum(header == name) != 1)
    refuse(if (any(header == name)) "the data have several columns " else "the data have no column ", name, "; the columns are ", listed(header),
           if (!any(header == name)) meant(name, header), kind = "unknown_column", told = list(names = name))
}

check_counts <- function(counts) {
  if (!is.numeric(counts)) refuse("the column of counts has to hold numbers")
  bad <- which(!is.finite(counts) | counts < 0 | counts != round(counts) | counts > 1e15)
  if (length(bad)) {
    sentence <- "the count of this record is no whole number up to 10^15"
    hint <- "; a count is a frequency, the number of records that the row stands for: weights of a survey are given as `weights`"
    fault <- list(stage = "counts", second = FALSE, number = 4L, sentence = sentence, printed = "", status = 4L, row = bad[1])
    stop(new_fault(fault, paste0(sentence_text(fault), hint)))
  }
  as.numeric(counts)
}

# Which rows have no missing value in the used columns; where missing values are levels, in those of the design alone.
complete_rows <- function(columns, missing, records, used) {
  if (missing == "level") columns <- columns[!names(columns) %in% used]
  is_missing <- Reduce(`|`, lapply(columns, is.na), rep(FALSE, length(records)))
  lacking <- vapply(columns, function(column) sum(records[is.na(column)]), 0)
  lacking <- lacking[lacking > 0]
  if (missing != "drop" && any(is_missing)) {
    message <- paste0(sum(records[is_missing]), " of ", counted(sum(records), "record"), " have a missing value in a column that the answer needs (",
                      paste0(names(lacking), ": ", lacking, collapse = ", "), '); missing = "drop" leaves them out, "level" makes missing a level')
    refuse(message, kind = "missing_values", told = list(rows = which(is_missing), columns = names(lacking)))
  }
  structure(!is_missing, lacking = lacking)
}

# The levels in the order in which they are numbered: those of a factor that occur, or all of them; text by first appearance; else sorted.
# A missing value is the last one, where it is left in.
levels_of <- function(column, keeps = FALSE) {
  if (is.factor(column)) {
    own <- if (keeps) levels(column) else levels(droplevels(column))
    own <- factor(own, levels(column), exclude = NULL, ordered = is.ordered(column))
  } else {
    own <- column[!duplicated(column)]
    own <- own[!is.na(own)]
    if (!is.character(own)) own <- own[order(own)]
  }
  if (anyNA(column) && !anyNA(own)) c(own, NA) else own
}

# The levels as texts of which each stands for one: numbers that print alike with 15 digits have 17; those of dates and times, which may
# hold parts that aren't printed, stand behind them.
level_labels <- function(levels) {
  labels <- as.character(levels)
  if (is.double(levels) && anyDuplicated(labels)) {
    exact <- formatC(as.vector(unclass(levels)), digits = 17, format = "g", width = 1)
    labels <- if (is.numeric(levels) || inherits(levels, "difftime")) exact else paste0(labels, " (", exact, ")")
  }
  replace(labels, is.na(levels), "NA")
}

# The place of a level that a caller names: by its value, or by its text; NA where there is none.
place_of_level <- function(levels, wanted) {
  if (length(wanted) != 1) refuse("a level is one value")
  is_time <- is.object(levels) && is.double(levels) && inherits(wanted, class(levels)[1])
  if (is.numeric(wanted) && is.numeric(levels) || is_time) {
    place <- match(as.vector(unclass(wanted)), as.vector(unclass(levels)))
    if (!is.na(place)) return(place)
  }
  match(if (is.na(wanted)) "NA" else as.character(wanted), level_labels(levels))
}

# The places of levels in order: those of a factor in its own, text by its characters, all else by size.
level_order <- function(levels) if (is.character(levels)) order(levels, method = "radix") else seq_along(levels)

# The table in which some variables have a second name, by their first one, as a column of its own.
with_second_names <- function(table, seconds) {
  for (name in names(seconds)) {
    second <- seconds[[name]]
    table$levels[[second]] <- table$levels[[name]]
    table$codes <- cbind(table$codes, matrix(table$codes[, name], dimnames = list(NULL, second)))
    table$names <- c(table$names, second)
  }
  table
}

# The table with other first levels of some variables: those at these places.
pin <- function(table, places) {
  for (name in names(places)) {
    order <- c(places[[name]], setdiff(seq_along(table$levels[[name]]), places[[name]]))
    table$levels[[name]] <- table$levels[[name]][order]
    table$codes[, name] <- match(table$codes[, name], order)
  }
  table$rows <- do.call(paste, c(lapply(table$names, function(name) table$codes[, name]), list(sep = ",")))
  table
}

is_plain <- function(column) is.atomic(column) && is.null(dim(column))

match_levels <- function(column, levels) match(as.vector(column), as.vector(levels))

# The text of a table. First come rows without counts that give the levels their order; then the rows with counts.
# The columns in `whole` keep all their levels; of the others only those that occur are given.
counts_text <- function(table, counts = table$counts, whole = table$names) {
  present <- which(counts > 0)
  header <- csv_line(c(table$names, count_name(table)))
  if (!length(present)) return(header)
  sizes <- lengths(table$levels)
  last <- max(sizes[whole], 1)
  head <- lapply(table$names, function(name) {
    if (name %in% whole) pmin(seq_len(last), sizes[[name]]) else rep(table$codes[present[1], name], last)
  })
  head <- paste0(do.call(paste, c(head, list(sep = ","))), ",0")
  paste(c(header, head, paste0(table$rows[present], ",", sprintf("%.0f", counts[present]))), collapse = "\n")
}

# A name for the column of counts that no vertex has.
count_name <- function(table) {
  name <- "count"
  while (name %in% table$names) name <- paste0(name, ".")
  name
}
