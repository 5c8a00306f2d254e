//! The application of the cases, over hyper: hyper_app FOLDER

use fowharimu::{Access, Claims, Nonces, Once, Proofs, Validator};
use fowharimu_http::{Dpop, Guard};
use hyper::header::AUTHORIZATION;
use hyper::service::{make_service_fn, service_fn};
use hyper::{Body, Request, Response, Server};
use std::collections::HashMap;
use std::convert::Infallible;
use std::num::NonZeroUsize;
use std::path::Path;
use std::sync::Arc;
use std::time::Duration;
use std::{env, error, fs};

const ORIGIN: &str = "https://api.example";

/// The guards of the paths.
struct Guards {
    plain: Guard,
    others: HashMap<&'static str, Guard>,
}

impl Guards {
    fn open(folder: &Path) -> Result<Guards, Box<dyn error::Error>> {
        let (policy, keys) = (
            fs::read(folder.join("policy.json"))?,
            fs::read(folder.join("keys.json"))?,
        );
        let validator = Arc::new(Validator::open(&policy, &keys)?);
        let rule = |name| -> Result<Access, Box<dyn error::Error>> {
            Ok(Access::open(&fs::read(folder.join(name))?)?)
        };
        let once = Arc::new(Once::open_with(NonZeroUsize::new(1000).ok_or("no proofs")?, None, 0)?);
        let proofs = Arc::new(Proofs::open(&fs::read(folder.join("proofs.json"))?, once)?);
        let nonces = Nonces::new(
            &fs::read(folder.join("nonce.secret"))?,
            Duration::from_secs(3600),
        )?;
        let plain = || Guard::new(Arc::clone(&validator));
        let dpop = || Dpop::new(Arc::clone(&proofs), ORIGIN);
        let others = HashMap::from([
            ("/scope", plain().access(rule("scope.json")?)),
            ("/role", plain().access(rule("role.json")?)),
            ("/hidden", plain().hide_token()),
            ("/unbound", plain()),
            ("/dpop", plain().dpop(dpop()?)),
            ("/dpop-only", plain().dpop(dpop()?.only())),
            ("/dpop-nonce", plain().dpop(dpop()?.nonces(nonces))),
            (
                "/dpop-scope",
                plain().dpop(dpop()?).access(rule("scope.json")?),
            ),
            ("/dpop-hidden", plain().dpop(dpop()?).hide_token()),
        ]);
        Ok(Guards {
            plain: plain(),
            others,
        })
    }

    fn of(&self, path: &str) -> &Guard {
        self.others.get(path).unwrap_or(&self.plain)
    }
}

/// What stands behind the guards.
fn answer(request: &Request<Body>) -> Response<Body> {
    let claims = request
        .extensions()
        .get::<Claims>()
        .map_or("null", Claims::json);
    let is_shown =
        request.headers().contains_key(AUTHORIZATION) || request.headers().contains_key("dpop");
    Response::new(Body::from(format!(
        "{{\"claims\":{claims},\"shown\":{is_shown}}}"
    )))
}

async fn serve(
    guards: Arc<Guards>,
    mut request: Request<Body>,
) -> Result<Response<Body>, Infallible> {
    let path = request.uri().path().to_owned();
    Ok(match guards.of(&path).admit(&mut request) {
        Ok(()) => answer(&request),
        Err(refusal) => refusal.response(),
    })
}

fn main() -> Result<(), Box<dyn error::Error>> {
    let folder = env::args().nth(1).ok_or("usage: hyper_app FOLDER")?;
    let guards = Arc::new(Guards::open(Path::new(&folder))?);
    let runtime = tokio::runtime::Builder::new_current_thread()
        .enable_all()
        .build()?;
    runtime.block_on(async {
        let service = make_service_fn(|_| {
            let guards = Arc::clone(&guards);
            async move {
                Ok::<_, Infallible>(service_fn(move |request| {
                    serve(Arc::clone(&guards), request)
                }))
            }
        });
        let server = Server::try_bind(&([127, 0, 0, 1], 0).into())?.serve(service);
        println!("listening on {}", server.local_addr());
        Ok(server.await?)
    })
}
