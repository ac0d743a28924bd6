# Data that stay in a database: the variables that an answer reads are counted there, by one query, and only the counts are fetched.
# Which variables these are the library tells.

# The query. Without a connection names are quoted as standard SQL has it, else as its database does.
counts_query <- function(diagram, table, x = NULL, y = NULL, count = NULL, set = NULL, of = c("effect", "implications"), connection = NULL,
                         given = NULL, short = NULL) {
  diagram <- as_causal_diagram(diagram)
  of <- one_of(of)
  check_count_name(count)
  if (of == "implications" && !all(vapply(list(x, y, set, given), is.null, NA))) refuse("implications have no `x`, no `y`, no `set` and no `given`")
  if (of == "implications" && isTRUE(short)) refuse("implications have no short formula")
  if (is.null(short)) short <- is.null(set)
  used <- if (of == "implications") used_columns(diagram, character(), "implications")
          else used_columns(diagram, asked_of(diagram, x, y, set, given, short = short)$words, "evaluate")
  if (is.null(used)) refuse("the diagram implies no independence, so there is nothing to count")
  if (!is.null(count)) refuse_used(enc2utf8(count), used)
  query_text(used, table, count, connection)
}

# A table of a database, which stands for a data frame.
database_table <- function(connection, table) {
  if (!requireNamespace("DBI", quietly = TRUE)) refuse("a table of a database needs the package DBI")
  if (!inherits(connection, "DBIConnection")) refuse("`connection` has to be a connection of the package DBI")
  structure(list(connection = connection, table = table_parts(table)), class = "causal_table")
}

print.causal_table <- function(x, ...) {
  cat("table ", paste(x$table, collapse = "."), " of a database\n", sep = "")
  invisible(x)
}

# The name of a table, with those of its schema and so on before it.
table_parts <- function(table) {
  if (inherits(table, "Id")) table <- unname(attr(table, "name"))
  if (!is.character(table) || !length(table) || anyNA(table) || !all(nzchar(table))) refuse("`table` is the name of a table")
  enc2utf8(table)
}

quote_name <- function(name, connection) {
  if (is.null(connection)) paste0('"', gsub('"', '""', enc2utf8(name), fixed = TRUE), '"')
  else as.character(DBI::dbQuoteIdentifier(connection, enc2utf8(name)))
}

quote_table <- function(table, connection) paste(vapply(table_parts(table), quote_name, "", connection = connection), collapse = ".")

# Each column stands with the table's name before it: some databases read a quoted name that they don't know as a text.
query_text <- function(used, table, count, connection) {
  quoted <- function(names) vapply(names, quote_name, "", connection = connection, USE.NAMES = FALSE)
  columns <- paste0("records.", quoted(used))
  number <- if (is.null(count)) "COUNT(*)" else paste0("SUM(records.", quoted(count), ")")
  fields <- paste(c(columns, number), "AS", quoted(c(used, count_name(list(names = used)))))
  paste0("SELECT ", paste(fields, collapse = ", "), " FROM ", quote_table(table, connection), " records GROUP BY ", paste(columns, collapse = ", "))
}

# The names of the columns of data.
header_of <- function(data) {
  if (is.data.frame(data)) return(names(data))
  if (is_lazy(data)) return(colnames(data))
  names(DBI::dbGetQuery(data$connection, paste("SELECT * FROM", quote_table(data$table, data$connection), "WHERE 0 = 1")))
}

# The counts of a table, as a data frame with the counts last, in an order that doesn't depend on the database.
fetch_counts <- function(data, used, count) {
  check_counts_there(data, count)
  query <- query_text(used, data$table, count, data$connection)
  # a column of several types is read with a warning that some values became others
  found <- tryCatch(DBI::dbGetQuery(data$connection, query), warning = function(it) refuse("the counts can't be read as they are: ", conditionMessage(it)))
  ordered_counts(stats::setNames(found, c(used, count_name(list(names = used)))), used)
}

ordered_counts <- function(found, used) {
  columns <- lapply(found, plain_column)
  columns[[length(columns)]] <- as.numeric(columns[[length(columns)]])
  order <- do.call(order, c(unname(columns[used]), list(method = "radix")))
  frame_of(lapply(columns, `[`, order))
}

# Sums could hide what is no count.
check_counts_there <- function(data, count) {
  if (is.null(count)) return(invisible())
  name <- paste0("records.", quote_name(count, data$connection))
  wrong <- DBI::dbGetQuery(data$connection, paste0("SELECT COUNT(*) FROM ", quote_table(data$table, data$connection), " records WHERE ", name,
                                                   " IS NULL OR ", name, " < 0 OR ", name, " <> ROUND(", name, ")"))
  refuse_wrong_counts(as.numeric(wrong[[1]]))
}

refuse_wrong_counts <- function(rows) {
  if (rows > 0) refuse(counted(rows, "row"), " of the table have no count that is a whole number from 0")
}

# Large whole numbers of a database as numbers of R, where these can hold them.
plain_column <- function(column) {
  if (!is_plain(column)) refuse("a column that the answer needs is no vector")
  if (!inherits(column, "integer64")) return(column)
  numbers <- suppressWarnings(as.numeric(column))
  if (any(abs(numbers) >= 2^53, na.rm = TRUE)) refuse("a column has whole numbers that R's numbers can't tell apart; cut it to a few classes first")
  numbers
}
