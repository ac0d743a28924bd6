\name{counts_query}
\alias{counts_query}
\alias{database_table}
\alias{print.causal_table}
\title{Count in a Database}
\description{
  \code{database_table} stands for a data frame that stays in a database: only the counts of what an answer reads are fetched.
  \code{counts_query} gives the query that counts.
}
\usage{
database_table(connection, table)

counts_query(diagram, table, x = NULL, y = NULL, count = NULL,
             set = NULL, of = c("effect", "implications"),
             connection = NULL, given = NULL, short = NULL)

\method{print}{causal_table}(x, ...)
}
\arguments{
  \item{connection}{a connection of the package \pkg{DBI}. In \code{counts_query} it may be \code{NULL}; then names are quoted as
    standard SQL has it, else as the connection does.}
  \item{table}{the name of a table or a view, or a character vector with the names of its schema and so on before it, or what
    \code{DBI::Id} gives.}
  \item{diagram, x, y}{as in \code{\link{evaluate}}; in the method \code{x} is a table.}
  \item{count}{the name of a column of counts, or \code{NULL} where each row is one record.}
  \item{set}{names of the vertices to adjust for, or \code{NULL} for the formula of \code{\link{identify_effect}}. A set that
    can't be adjusted for is an error.}
  \item{given}{names of vertices that a conditional effect is given, as in \code{\link{evaluate}}.}
  \item{short}{whether the short formula is meant, as in \code{\link{evaluate}}; \code{NULL} for its default.}
  \item{of}{whether the counts are for an effect, or for \code{\link{implications}} and their tests.}
  \item{...}{not used.}
}
\details{
  What \code{database_table} gives may stand wherever a function of this package takes data over which it computes:
  \code{\link{evaluate}}, \code{\link{pin_spread}}, \code{\link{contrast}}, \code{\link{effect_means}}, \code{\link{implications}} and
  \code{\link{test_implications}}. One query with one \code{GROUP BY} counts the records in the database, and the answer is that over
  the counts as a data frame. Resamples and permutations are drawn from the counts, so no record is ever fetched. A query for the
  names of the columns goes before, and with \code{count} one that tells whether each row's count is a whole number.

  A lazy table of the package \pkg{dplyr}, as \pkg{dbplyr} and \pkg{sparklyr} make them, is data too: it is counted by dplyr's own
  verbs. That is tested with \pkg{dbplyr} over SQLite.

  Or run \code{counts_query} where the data are, and hand on what it gives: \code{evaluate(diagram, counts, count = "count")}. The
  column of counts has the name \code{count}, with points behind it where a variable has that name.

  Which variables are read the library tells. Levels are what the database's \code{GROUP BY} tells apart; text is taken in the
  order of its characters. \code{NULL} is a missing value. The attribute \code{dropped} of an answer is then the number of records
  left out, and the \code{rows} of a condition are those of the counts.

  That the database counts as it should isn't proved, nor is this package's query; it is tested with SQLite.
}
\value{
  \code{counts_query} gives a text; \code{database_table} an object of the class \code{causal_table}.
}
\seealso{\code{\link{evaluate}}}
\examples{
diagram <- causal_diagram("dag { T [exposure] R [outcome] S -> T S -> R T -> R }")
cat(counts_query(diagram, "stones"))

if (requireNamespace("RSQLite", quietly = TRUE)) {
  connection <- DBI::dbConnect(RSQLite::SQLite(), ":memory:")
  DBI::dbWriteTable(connection, "stones", kidney_stones)
  print(evaluate(diagram, database_table(connection, "stones"), count = "count"))
  DBI::dbDisconnect(connection)
}
}
