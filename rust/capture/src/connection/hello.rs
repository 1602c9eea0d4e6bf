//! What the TLS messages of a connection say of it.

use super::{Connection, Tell};
use crate::keylog::KeyLog;
use crate::opened::Opened;
use crate::sink::Event;
use crate::tls::Said;
use quic_wire::Side;
use quic_wire::frame::Crypto;
use quic_wire::ids::SpaceId;
use quic_wire::transport_parameters::{ReadOptions, TransportParameters};

impl Connection {
    /// Takes CRYPTO data of a ClientHello after a Retry.
    pub(super) fn take_again(&mut self, opened: &Opened<'_>, crypto: &Crypto<'_>) {
        let is_of_client = opened.sender() == Side::Client && opened.space() == SpaceId::Initial;
        let is_after = is_of_client && *opened.packet().dst_cid() != *self.first_dcid;
        if let Some(again) = self.again.as_mut().filter(|_| is_after) {
            again.take(crypto.offset, crypto.bytes);
        }
    }

    /// The random bytes for which a key log has secrets: those of the first ClientHello or, if it has none for them, of
    /// the one after a Retry.
    pub(super) fn random_in(&self, keylog: &KeyLog) -> Option<&[u8; 32]> {
        let again = self.again.as_ref().and_then(|again| again.random());
        let is_first = self.random.is_none_or(|first| keylog.knows(&first));
        again.filter(|again| !is_first && keylog.knows(again)).or(self.random.as_ref())
    }

    /// Takes what a TLS message says.
    pub(super) fn take_message(&mut self, opened: &Opened<'_>, said: Said, tell: &mut Tell<'_>) {
        let (list, sender) = match (said, opened.sender(), opened.space()) {
            (Said::ClientHello { random, parameters, server_name }, Side::Client, SpaceId::Initial) => {
                (self.random, self.server_name) = (Some(random), server_name);
                (parameters, Side::Client)
            }
            (Said::ServerHello { suite }, Side::Server, SpaceId::Initial) => {
                self.suite = Some(suite);
                (None, Side::Server)
            }
            (Said::EncryptedExtensions { parameters, protocol }, Side::Server, SpaceId::Handshake) => {
                self.protocol = protocol;
                (parameters, Side::Server)
            }
            _ => return,
        };
        if let Some(list) = list {
            self.take_parameters(opened, sender, &list, tell);
        }
    }

    // Parameters that RFC 9000 rejects count if quinn-proto accepts them.
    fn take_parameters(&mut self, opened: &Opened<'_>, sender: Side, list: &[u8], tell: &mut Tell<'_>) {
        let parameters = match TransportParameters::read_list(!sender, ReadOptions::RFC, list) {
            Ok(parameters) => parameters,
            Err(refusal) => {
                tell(self, Event::Parameters { opened, list, read: Err(&refusal) });
                let Ok(parameters) = TransportParameters::read_list(!sender, ReadOptions::QUINN, list) else { return };
                parameters
            }
        };
        tell(self, Event::Parameters { opened, list, read: Ok(&parameters) });
        let end = &mut self.ends[sender as usize];
        end.parameters = Some(parameters);
        if let Some(token) = parameters.stateless_reset_token {
            end.add_token(token);
        }
        if let Some(address) = parameters.preferred_address {
            end.add_id(1, address.connection_id, Some(address.stateless_reset_token));
            tell(self, Event::NewId(address.connection_id, sender));
        }
    }
}
