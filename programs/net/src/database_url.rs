//! A URL of a database, as DATABASE_URL has it.

/// What leads a client elsewhere.
const PLACES: [&str; 5] = ["host", "hostaddr", "port", "service", "servicefile"];
/// What asks for encryption.
const ENCRYPTION: [&str; 6] =
    ["ssl", "sslmode", "sslnegotiation", "sslrootcert", "gssencmode", "channel_binding"];

/// Whether a scheme is of PostgreSQL, also with a driver's name: `postgresql+asyncpg`, `jdbc:postgresql`, `postgis`.
fn is_postgres(scheme: &str) -> bool {
    let scheme = scheme.strip_prefix("jdbc:").unwrap_or(scheme);
    matches!(scheme.split('+').next(), Some("postgres" | "postgresql" | "postgis"))
}

/// The same URL with another host and port, and without parameters that name some; without those of encryption too where there is
/// none. `None` where it isn't of PostgreSQL.
pub fn redirect(url: &str, place: &str, is_encrypted: bool) -> Option<String> {
    let (scheme, rest) = url.split_once("://").filter(|(scheme, _)| is_postgres(scheme))?;
    let (rest, query) = rest.split_once('?').unwrap_or((rest, ""));
    let (authority, path) = rest.split_at(rest.find('/').unwrap_or(rest.len()));
    let user = authority.rfind('@').map_or("", |at| &authority[..=at]);
    let is_kept = |parameter: &&str| {
        let name = parameter.split('=').next().unwrap_or_default();
        !PLACES.contains(&name) && (is_encrypted || !ENCRYPTION.contains(&name))
    };
    let query: Vec<&str> = query.split('&').filter(|it| !it.is_empty()).filter(is_kept).collect();
    let mark = if query.is_empty() { "" } else { "?" };
    Some(format!("{scheme}://{user}{place}{path}{mark}{}", query.join("&")))
}

#[cfg(test)]
mod tests {
    use super::redirect;

    #[test]
    fn a_url_leads_to_another_place_and_keeps_the_rest() {
        for (url, plain, encrypted) in [
            ("postgres://db", "postgres://to:1", "postgres://to:1"),
            (
                "postgresql://ann:p%40@db:5432/shop",
                "postgresql://ann:p%40@to:1/shop",
                "postgresql://ann:p%40@to:1/shop",
            ),
            ("postgres://a@[::1]:5,[::2]:6/b", "postgres://a@to:1/b", "postgres://a@to:1/b"),
            (
                "postgres:///b?host=/run&user=ann",
                "postgres://to:1/b?user=ann",
                "postgres://to:1/b?user=ann",
            ),
            (
                "postgresql+asyncpg://db/b?sslmode=require&connect_timeout=5",
                "postgresql+asyncpg://to:1/b?connect_timeout=5",
                "postgresql+asyncpg://to:1/b?sslmode=require&connect_timeout=5",
            ),
            (
                "jdbc:postgresql://db/b?ssl=true",
                "jdbc:postgresql://to:1/b",
                "jdbc:postgresql://to:1/b?ssl=true",
            ),
            ("postgis://db?service=own", "postgis://to:1", "postgis://to:1"),
        ] {
            assert_eq!(redirect(url, "to:1", false).as_deref(), Some(plain), "{url}");
            assert_eq!(redirect(url, "to:1", true).as_deref(), Some(encrypted), "{url}");
        }
        for other in ["mysql://db/b", "sqlite:///b", "host=db port=5", ""] {
            assert_eq!(redirect(other, "to:1", false), None, "{other}");
        }
    }
}
