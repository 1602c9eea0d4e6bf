//! A server and a client by quinn, for vectors/captures/record.py: HTTP/0.9 of files in `www`, with the certificate in
//! `cert.pem` and `key.pem`. A client writes its secrets to the file that SSLKEYLOGFILE names.
//!
//! `quinn-peer serve|ask ADDRESS [NAME=VALUE ..]`
//!
//! Names of a server: retry; of a client: file, update (of keys), move (to another port), datagram (sent).

use quinn::crypto::rustls::{QuicClientConfig, QuicServerConfig};
use quinn::{ClientConfig, Connection, Endpoint, RecvStream, SendStream, ServerConfig, TransportConfig};
use rustls::client::danger::{HandshakeSignatureValid, ServerCertVerified, ServerCertVerifier};
use rustls::crypto::{CryptoProvider, ring, verify_tls12_signature, verify_tls13_signature};
use rustls::pki_types::pem::PemObject;
use rustls::pki_types::{CertificateDer, PrivateKeyDer, ServerName, UnixTime};
use rustls::version::TLS13;
use rustls::{DigitallySignedStruct, KeyLogFile, SignatureScheme};
use std::collections::HashMap;
use std::error::Error;
use std::net::{SocketAddr, UdpSocket};
use std::path::Path;
use std::sync::Arc;
use std::time::Duration;

type Failure = Box<dyn Error + Send + Sync>;
type Options = HashMap<String, String>;

const PROTOCOL: &[u8] = b"hq-interop";
const PAUSE: Duration = Duration::from_millis(50);

/// Accepts any certificate: that of record.py is signed by itself.
#[derive(Debug)]
struct Anyone(Arc<CryptoProvider>);

impl ServerCertVerifier for Anyone {
    fn verify_server_cert(
        &self,
        _: &CertificateDer<'_>,
        _: &[CertificateDer<'_>],
        _: &ServerName<'_>,
        _: &[u8],
        _: UnixTime,
    ) -> Result<ServerCertVerified, rustls::Error> {
        Ok(ServerCertVerified::assertion())
    }

    fn verify_tls12_signature(
        &self,
        message: &[u8],
        certificate: &CertificateDer<'_>,
        signature: &DigitallySignedStruct,
    ) -> Result<HandshakeSignatureValid, rustls::Error> {
        verify_tls12_signature(message, certificate, signature, &self.0.signature_verification_algorithms)
    }

    fn verify_tls13_signature(
        &self,
        message: &[u8],
        certificate: &CertificateDer<'_>,
        signature: &DigitallySignedStruct,
    ) -> Result<HandshakeSignatureValid, rustls::Error> {
        verify_tls13_signature(message, certificate, signature, &self.0.signature_verification_algorithms)
    }

    fn supported_verify_schemes(&self) -> Vec<SignatureScheme> {
        self.0.signature_verification_algorithms.supported_schemes()
    }
}

// Segments aren't left to the kernel, so that a record has one datagram.
fn transport() -> Arc<TransportConfig> {
    let mut transport = TransportConfig::default();
    transport.enable_segmentation_offload(false);
    Arc::new(transport)
}

fn server_config(provider: Arc<CryptoProvider>) -> Result<ServerConfig, Failure> {
    let certificates = CertificateDer::pem_file_iter("cert.pem")?.collect::<Result<Vec<_>, _>>()?;
    let key = PrivateKeyDer::from_pem_file("key.pem")?;
    let mut tls = rustls::ServerConfig::builder_with_provider(provider)
        .with_protocol_versions(&[&TLS13])?
        .with_no_client_auth()
        .with_single_cert(certificates, key)?;
    tls.alpn_protocols = vec![PROTOCOL.to_vec()];
    let mut config = ServerConfig::with_crypto(Arc::new(QuicServerConfig::try_from(tls)?));
    config.transport_config(transport());
    Ok(config)
}

fn client_config(provider: Arc<CryptoProvider>) -> Result<ClientConfig, Failure> {
    let mut tls = rustls::ClientConfig::builder_with_provider(provider.clone())
        .with_protocol_versions(&[&TLS13])?
        .dangerous()
        .with_custom_certificate_verifier(Arc::new(Anyone(provider)))
        .with_no_client_auth();
    tls.alpn_protocols = vec![PROTOCOL.to_vec()];
    tls.key_log = Arc::new(KeyLogFile::new());
    let mut config = ClientConfig::new(Arc::new(QuicClientConfig::try_from(tls)?));
    config.transport_config(transport());
    Ok(config)
}

// Sends the file that a stream asks for.
async fn answer(mut send: SendStream, mut receive: RecvStream) -> Result<(), Failure> {
    let request = String::from_utf8(receive.read_to_end(1000).await?)?;
    let name = request.split_whitespace().nth(1).ok_or("no name")?.trim_matches('/');
    send.write_all(&std::fs::read(Path::new("www").join(name))?).await?;
    send.finish()?;
    send.stopped().await?;
    Ok(())
}

async fn serve(address: SocketAddr, options: Options) -> Result<(), Failure> {
    let endpoint = Endpoint::server(server_config(Arc::new(ring::default_provider()))?, address)?;
    while let Some(incoming) = endpoint.accept().await {
        if options.contains_key("retry") && !incoming.remote_address_validated() {
            incoming.retry()?;
            continue;
        }
        tokio::spawn(async move {
            let connection = incoming.await?;
            while let Ok((send, receive)) = connection.accept_bi().await {
                tokio::spawn(answer(send, receive));
            }
            Ok::<(), Failure>(())
        });
    }
    Ok(())
}

async fn get(connection: &Connection, file: &str) -> Result<(), Failure> {
    let (mut send, mut receive) = connection.open_bi().await?;
    send.write_all(format!("GET /{file}\r\n").as_bytes()).await?;
    send.finish()?;
    receive.read_to_end(usize::MAX).await?;
    Ok(())
}

async fn ask(address: SocketAddr, options: Options) -> Result<(), Failure> {
    let mut endpoint = Endpoint::client(([0, 0, 0, 0], 0).into())?;
    endpoint.set_default_client_config(client_config(Arc::new(ring::default_provider()))?);
    let connection = endpoint.connect(address, "localhost")?.await?;
    get(&connection, options.get("file").map_or("small", |file| file)).await?;
    if options.contains_key("update") {
        connection.force_key_update();
    }
    if options.contains_key("move") {
        endpoint.rebind(UdpSocket::bind("0.0.0.0:0")?)?;
    }
    if options.contains_key("datagram") {
        connection.send_datagram(b"a datagram".as_slice().into())?;
    }
    if options.len() > usize::from(options.contains_key("file")) {
        get(&connection, "small").await?;
        tokio::time::sleep(PAUSE).await;
    }
    connection.close(0u32.into(), b"done");
    endpoint.wait_idle().await;
    Ok(())
}

#[tokio::main(flavor = "current_thread")]
async fn main() -> Result<(), Failure> {
    let arguments: Vec<_> = std::env::args().skip(1).collect();
    let [mode, address, options @ ..] = &arguments[..] else {
        return Err("quinn-peer serve|ask ADDRESS [NAME=VALUE ..]".into());
    };
    let options = options.iter().filter_map(|one| one.split_once('='));
    let options = options.map(|(name, value)| (name.into(), value.into())).collect();
    match &mode[..] {
        "serve" => serve(address.parse()?, options).await,
        "ask" => ask(address.parse()?, options).await,
        _ => Err(format!("no mode {mode}").into()),
    }
}
