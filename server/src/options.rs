//! The command line.
use crate::channel::Limits;
use crate::login::{Account, NATIVE, SHA2};
use crate::tls::Keys;
use clap::builder::NonEmptyStringValueParser;
use clap::error::{ContextKind, ContextValue, ErrorKind};
use clap::Parser;
use std::error::Error;
use std::ffi::OsString;
use std::net::IpAddr;
use std::path::{Component, Path, PathBuf};
use std::time::Duration;

/// Speaks MySQL's client protocol over stores in memory, so that MySQL's clients drive them.
#[derive(Clone, Debug, Parser)]
#[command(name = "nigbaru-server", version, args_override_self = true, allow_negative_numbers = true)]
pub struct Options {
    /// How many stores, 1 to 64, each with a port of its own
    #[arg(long, value_name = "N", default_value = "1", value_parser = number::<usize>(1, 64))]
    pub stores: usize,
    /// The first store's port; the others follow; 0 takes free ones
    #[arg(long, value_name = "N", default_value = "3306", value_parser = number::<u16>(0, 65_535))]
    pub port: u16,
    /// Where to listen; elsewhere than on loopback only with an account
    #[arg(long, value_name = "H", default_value = "127.0.0.1", value_parser = NonEmptyStringValueParser::new())]
    pub host: String,
    /// A unix socket too; with several stores PATH.1, PATH.2 and so on
    #[arg(long, value_name = "PATH")]
    pub socket: Option<PathBuf>,
    /// The one user that is let in
    #[arg(long, value_name = "U", value_parser = NonEmptyStringValueParser::new())]
    user: Option<String>,
    /// Its first line is the user's password
    #[arg(long, value_name = "F")]
    password_file: Option<PathBuf>,
    #[arg(skip)]
    pub account: Option<Account>,
    /// The plugin that the greeting names: mysql_native_password or caching_sha2_password
    #[arg(long, value_name = "PLUGIN", default_value = NATIVE, value_parser = plugin)]
    pub auth: &'static str,
    /// The server's certificate in PEM, for clients that ask for TLS
    #[arg(long, value_name = "FILE")]
    tls_cert: Option<PathBuf>,
    /// Its private key in PEM
    #[arg(long, value_name = "FILE")]
    tls_key: Option<PathBuf>,
    #[arg(skip)]
    pub tls: Option<Keys>,
    /// Faults on purpose; the file is read again when it changes
    #[arg(long, value_name = "FILE")]
    pub fault: Option<PathBuf>,
    /// A record for `xa_script judge`; with several stores FILE.1, FILE.2 and so on
    #[arg(long, value_name = "FILE")]
    pub record: Option<PathBuf>,
    /// The record goes on in FILE.1, FILE.2 and so on, each after about so many bytes, 4096 to 16000000
    // (pieces are a little longer than that, and `judge` reads 16 MiB)
    #[arg(long, value_name = "BYTES", value_parser = number::<u64>(4_096, 16_000_000))]
    pub record_size: Option<u64>,
    /// What was logged, for `xa_script run`; with several stores FILE.1, FILE.2 and so on
    #[arg(long, value_name = "FILE")]
    pub history: Option<PathBuf>,
    /// What the stores do, in JSON, written anew each second
    #[arg(long, value_name = "FILE")]
    pub status: Option<PathBuf>,
    /// Connections of a store that have logged in
    #[arg(long = "max-connections", value_name = "N", default_value = "1000")]
    #[arg(value_parser = number::<usize>(1, 100_000))]
    pub connections: usize,
    /// Connections of a store that haven't [default: as --max-connections]
    #[arg(long, value_name = "N", value_parser = number::<usize>(1, 100_000))]
    max_logins: Option<usize>,
    /// How long a statement waits for one of the store's 16 sessions; 0: not at all
    #[arg(long, value_name = "SECONDS", default_value = "5", value_parser = seconds(0.0))]
    pub wait: Duration,
    /// GET gives its value as a text, and not as bytes
    #[arg(long)]
    pub text_values: bool,
    /// How long GET, PUT and DEL wait for a row that another branch holds; 0: they are refused at once, with 3572
    #[arg(long, value_name = "SECONDS", default_value = "0", value_parser = seconds(0.0))]
    pub lock_wait: Duration,
    #[command(flatten)]
    pub limits: Limits,
    /// How many of the last entries of its history a store keeps, 64 to 65536
    #[arg(long, value_name = "N", default_value = "1024", value_parser = number::<u64>(64, 65_536))]
    pub rows: u64,
}

// values

/// A number of a range; what is refused is told behind "takes".
pub fn number<T: TryFrom<u64>>(least: u64, most: u64) -> impl Fn(&str) -> Result<T, String> + Clone {
    move |word| {
        let number = word.parse().ok().filter(|it| (least..=most).contains(it));
        number.and_then(|it| T::try_from(it).ok()).ok_or_else(|| format!("a number from {} to {}", least, most))
    }
}

pub fn seconds(least: f64) -> impl Fn(&str) -> Result<Duration, String> + Clone {
    move |word| {
        let seconds = word.parse().ok().filter(|it: &f64| (least..=86_400.0).contains(it));
        seconds.map(Duration::from_secs_f64).ok_or_else(|| format!("seconds from {} to 86400", least))
    }
}

fn plugin(word: &str) -> Result<&'static str, String> {
    [NATIVE, SHA2].into_iter().find(|it| *it == word).ok_or_else(|| format!("{} or {}", NATIVE, SHA2))
}

// all of it

/// The options that a command line has. If it asks for help or the version, these are printed, and the process ends.
pub fn read(words: impl Iterator<Item = OsString>) -> Result<Options, String> {
    let mut options = match Options::try_parse_from(words) {
        Ok(options) => options,
        Err(fault) if fault.use_stderr() => return Err(told(&fault)),
        Err(asked) => asked.exit(),
    };
    options.hold_files_apart()?;
    if options.port > 0 && usize::from(options.port) + options.stores - 1 > 65_535 {
        return Err("there are no ports for so many stores".to_string());
    }
    if options.record_size.is_some() && options.record.is_none() {
        return Err("--record-size goes with --record".to_string());
    }
    options.account = options.read_account()?;
    options.tls = options.read_keys()?;
    Ok(options)
}

/// What is wrong with a command line, in one line.
fn told(fault: &clap::Error) -> String {
    let said = |kind| match fault.get(kind) {
        Some(ContextValue::String(said)) => said.as_str(),
        _ => "",
    };
    let (option, value) = (said(ContextKind::InvalidArg), said(ContextKind::InvalidValue));
    // (clap puts the value's name behind the option's)
    let name = option.split(' ').next().unwrap_or(option);
    match (fault.kind(), fault.source()) {
        (ErrorKind::UnknownArgument, _) => format!("{} isn't an option: --help lists them", name),
        (ErrorKind::InvalidValue, _) => format!("{} takes a value", name),
        (ErrorKind::ValueValidation, Some(what)) => format!("{} takes {}, not {}", name, what, value),
        (ErrorKind::InvalidUtf8, _) => "a word of the command line isn't UTF-8".to_string(),
        _ => fault.to_string(),
    }
}

impl Options {
    /// How many connections of a store may be there that haven't logged in.
    pub fn logins(&self) -> usize {
        self.max_logins.unwrap_or(self.connections)
    }

    /// No file is named twice, since one would be written over the other.
    fn hold_files_apart(&self) -> Result<(), String> {
        let plain = |path: &PathBuf| path.components().filter(|it| *it != Component::CurDir).collect::<PathBuf>();
        let named = [
            ("fault", &self.fault),
            ("record", &self.record),
            ("history", &self.history),
            ("status", &self.status),
            ("socket", &self.socket),
            ("password-file", &self.password_file),
        ];
        let given: Vec<_> = named.iter().filter_map(|(name, path)| Some((name, plain(path.as_ref()?)))).collect();
        for (index, (name, path)) in given.iter().enumerate() {
            if let Some((other, _)) = given[..index].iter().find(|(_, it)| it == path) {
                return Err(format!("--{} and --{} name the same file", other, name));
            }
        }
        Ok(())
    }

    fn read_keys(&self) -> Result<Option<Keys>, String> {
        match (&self.tls_cert, &self.tls_key) {
            (Some(certificate), Some(key)) => Keys::read(certificate, key).map(Some),
            (None, None) => Ok(None),
            _ => Err("--tls-cert and --tls-key go together".to_string()),
        }
    }

    /// Who may log in. Elsewhere than on loopback nobody may without a password.
    fn read_account(&self) -> Result<Option<Account>, String> {
        let (user, file) = match (&self.user, &self.password_file) {
            (Some(user), Some(file)) => (user, file),
            (None, None) if is_loopback(&self.host) => return Ok(None),
            (None, None) => {
                return Err(format!(
                    "--host {} can be reached from other machines, so it needs --user and --password-file",
                    self.host
                ))
            }
            _ => return Err("--user and --password-file go together".to_string()),
        };
        let text = std::fs::read(file).map_err(|fault| format!("--password-file {}: {}", file.display(), fault))?;
        let line = text.split(|byte| *byte == b'\n').next().unwrap_or(b"");
        let password = line.strip_suffix(b"\r").unwrap_or(line);
        if password.is_empty() {
            return Err(format!("--password-file {} has no password in its first line", file.display()));
        }
        Ok(Some(Account { user: user.as_bytes().to_vec(), password: password.to_vec() }))
    }
}

fn is_loopback(host: &str) -> bool {
    host.parse::<IpAddr>().map_or(host == "localhost", |it| it.is_loopback())
}

/// A store's file: the given path, with the store's number behind it where there are several.
pub fn path_of(path: &Path, store: usize, stores: usize) -> PathBuf {
    if stores == 1 {
        return path.to_path_buf();
    }
    let mut name = path.as_os_str().to_os_string();
    name.push(format!(".{}", store));
    PathBuf::from(name)
}

#[cfg(test)]
mod tests {
    use super::*;
    use std::os::unix::ffi::OsStringExt;

    fn options(words: &str) -> Result<Options, String> {
        read(["nigbaru-server"].into_iter().chain(words.split_whitespace()).map(OsString::from))
    }

    #[test]
    fn what_is_usual() {
        let it = options("").unwrap();
        assert_eq!(
            (it.stores, it.port, it.host.as_str(), it.connections, it.logins()),
            (1, 3306, "127.0.0.1", 1_000, 1_000)
        );
        assert_eq!(
            (it.wait, it.limits.patience, it.limits.idle, it.limits.longest),
            (Duration::from_secs(5), Duration::from_secs(10), Duration::ZERO, 65_536)
        );
        let it = options("--stores=2 --wait 0 --max-connections 30 --auth caching_sha2_password").unwrap();
        assert_eq!((it.stores, it.wait, it.connections, it.logins(), it.auth), (2, Duration::ZERO, 30, 30, SHA2));
        let waits = |words| options(words).unwrap().lock_wait;
        assert_eq!((waits(""), waits("--lock-wait 1.5")), (Duration::ZERO, Duration::from_millis(1_500)));
    }

    #[test]
    fn the_last_value_counts() {
        let it = options("--stores 2 --stores 3 --max-logins 5 --max-logins 6").unwrap();
        assert_eq!((it.stores, it.logins()), (3, 6));
    }

    #[test]
    fn what_is_refused() {
        for (words, said) in [
            ("--stores 0", "1 to 64"),
            ("--port 65535 --stores 2", "no ports"),
            ("--host 0.0.0.0", "needs --user"),
            ("--user u", "go together"),
            ("--tls-cert c", "go together"),
            ("--record-size 5000", "goes with --record"),
            ("--record r --record-size 16000001", "4096 to 16000000"),
            ("--wait -1", "seconds"),
            ("--wait nan", "seconds"),
            ("--lock-wait -1", "seconds from 0 to 86400"),
            ("--port", "takes a value"),
            ("--socket=", "--socket takes a value"),
            ("--record= --port 0", "--record takes a value"),
            ("--user=", "--user takes a value"),
            ("--shout", "isn't an option"),
            ("program", "isn't an option"),
            ("--auth x", "--auth takes"),
            ("--record --history h", "takes a value"),
            ("--record r --history ./r", "same file"),
            ("--fault f --status f", "same file"),
            ("-- x", "isn't an option"),
            ("--=1", "isn't an option"),
            ("-x", "isn't an option"),
            ("--stor 1", "isn't an option"),
            ("--port 65536", "0 to 65535"),
            ("--rows 1e3", "64 to 65536, not 1e3"),
        ] {
            let why = options(words).unwrap_err();
            assert!(why.contains(said) && !why.contains('\n'), "{}: {}", words, why);
        }
        let words = [&b"nigbaru-server"[..], b"--user", b"\xff"].map(|it| OsString::from_vec(it.to_vec()));
        assert!(read(words.into_iter()).unwrap_err().contains("isn't UTF-8"));
    }

    #[test]
    fn files_of_several_stores() {
        assert_eq!(path_of(Path::new("r"), 1, 1), Path::new("r"));
        assert_eq!(path_of(Path::new("a/r"), 2, 2), Path::new("a/r.2"));
    }
}
