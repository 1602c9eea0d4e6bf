
impl Ends {
    /// Takes a datagram. Returns what is sent at once.
    pub fn take(&mut self, sent: &Sent, random: &mut Random) -> Vec<Sent> {
        let side = !sent.sender;
        if side == Side::Server {
            self.ends[1].paths.entry(sent.from).or_default().0 += sent.bytes.len() as u64;
        }
        if let Some((id, token)) = &sent.retry {
            self.take_retry(id, token);
            return Vec::new();
        }
        let mut answers = Vec::new();
        for plain in &sent.plain {
            if self.wants_retry(plain, side) {
                answers.extend(self.retry(sent.from, random));
                return answers;
            }
            if !self.can_open(plain, side) || !self.ends[side as usize].taken[space_of(plain.kind)].insert(plain.number) {
                continue;
            }
            answers.extend(self.take_plain(plain, sent, side, random));
        }
        answers
    }

    fn wants_retry(&self, plain: &Plain, side: Side) -> bool {
        self.has_retry && side == Side::Server && plain.kind == Initial && plain.token.is_empty() && !self.ends[1].is_begun
    }

    fn retry(&mut self, to: SocketAddr, random: &mut Random) -> Option<Sent> {
        if !self.ends[1].has_room(to) {
            return None;
        }
        let id = RETRIED[random.below(RETRIED.len())];
        let token = [b"token of ", id].concat();
        let mut made = self.talk.made.clone();
        made.ids = self.ids.clone();
        made.version = self.ends[0].version;
        let bytes = made.retry_with(id, &token).bytes;
        let from = self.ends[1].address;
        self.ends[1].paths.entry(to).or_default().1 += bytes.len() as u64;
        Some(Sent { sender: Side::Server, plain: Vec::new(), retry: Some((id.to_vec(), token)), bytes, from, to })
    }

    fn take_retry(&mut self, id: &[u8], token: &[u8]) {
        let client = &mut self.ends[0];
        if !client.token.is_empty() || !client.taken[0].is_empty() {
            return;
        }
        (client.token, client.initial_id, client.first_to) = (token.to_vec(), id.to_vec(), id.to_vec());
        let flying = std::mem::take(&mut client.flying[0]);
        client.queue[0].extend(flying.into_values().flat_map(|one| one.frames));
    }

    fn can_open(&self, plain: &Plain, side: Side) -> bool {
        let (end, space) = (&self.ends[side as usize], space_of(plain.kind));
        if end.discarded[space] || end.is_drained {
            return false;
        }
        match (plain.kind, side) {
            // Until it has begun, a server takes what comes.
            (Initial, Side::Server) => !end.is_begun || plain.token == end.token,
            (Initial, Side::Client) => true,
            (Handshake | ZeroRtt, _) => end.has_flight,
            _ => end.is_complete,
        }
    }

    fn take_plain(&mut self, plain: &Plain, sent: &Sent, side: Side, random: &mut Random) -> Vec<Sent> {
        let space = space_of(plain.kind);
        if side == Side::Server {
            self.begin(plain, sent);
        } else if plain.kind != Short {
            let id = self.ids[1].clone();
            let (client, last) = (&mut self.ends[0], self.answers_in);
            client.first_to = id;
            if client.version != last {
                client.version = plain.version;
            }
        }
        let (mut elicits, mut answers, mut is_probing) = (false, Vec::new(), true);
        if plain.kind == Short {
            self.follow_keys(plain, side);
        }
        for frame in Iter::new(&plain.payload).unwrap().map(Result::unwrap) {
            elicits |= frame.is_ack_eliciting();
            is_probing &= frame.is_probing();
            answers.extend(self.take_frame(&frame, plain, sent, side, random));
        }
        let end = &mut self.ends[side as usize];
        if !end.discarded[space] {
            end.received[space].insert(plain.number);
            end.owes_ack[space] |= elicits;
        }
        if side == Side::Server && space == 2 && !is_probing && plain.number >= end.largest_from {
            (end.largest_from, end.peer) = (plain.number, sent.from);
            if !end.paths[&sent.from].2 {
                answers.extend(self.challenge(side, random));
            }
        }
        if self.ends[side as usize].has_close && random.below(2) == 0 {
            answers.push(self.close_again(side));
        }
        answers
    }

    // What a server learns of a packet's header.
    fn begin(&mut self, plain: &Plain, sent: &Sent) {
        let server = &mut self.ends[1];
        if !server.is_begun {
            (server.is_begun, server.initial_id, server.token) = (true, plain.to.clone(), plain.token.clone());
            server.version = plain.version;
            if !plain.token.is_empty() {
                self.talk.parameters[1].retry_src_cid = Some(ConnectionId::new(&plain.to));
                server.paths.get_mut(&sent.from).unwrap().2 = true;
            }
        }
        if plain.kind == Handshake {
            self.ends[1].discarded[0] = true;
            self.ends[1].paths.get_mut(&sent.from).unwrap().2 = true;
        }
    }

    fn follow_keys(&mut self, plain: &Plain, side: Side) {
        let end = &mut self.ends[side as usize];
        if plain.updates > end.updates {
            (end.updates, end.may_update) = (plain.updates, false);
        }
    }

    fn take_frame(
        &mut self,
        frame: &Frame<'_>,
        plain: &Plain,
        sent: &Sent,
        side: Side,
        random: &mut Random,
    ) -> Vec<Sent> {
        let space = space_of(plain.kind);
        match frame {
            Frame::Ack(ack) => {
                let end = &mut self.ends[side as usize];
                for number in ack.iter().flatten() {
                    let Some(one) = end.flying[space].remove(&number) else { continue };
                    end.may_update |= space == 2 && one.updates == end.updates && end.is_confirmed;
                    if let Some(largest) = one.largest.filter(|_| random.below(2) == 0) {
                        end.received[space].retain(|number| *number > largest);
                    }
                }
            }
            Frame::Crypto(one) => self.take_crypto(one.offset, one.bytes.len() as u64, space, side),
            Frame::HandshakeDone => {
                let client = &mut self.ends[0];
                (client.is_confirmed, client.discarded[1]) = (true, true);
            }
            Frame::PathChallenge(data) => return self.answer(*data, sent, side),
            Frame::PathResponse(data) => {
                let end = &mut self.ends[side as usize];
                if let Some(to) = end.challenges.get(data) {
                    end.paths.entry(*to).or_default().2 = true;
                }
            }
            Frame::Close(_) => {
                let end = &mut self.ends[side as usize];
                end.is_drained = true;
            }
            other => self.take_data(other, side),
        }
        Vec::new()
    }

    fn take_crypto(&mut self, offset: u64, len: u64, space: usize, side: Side) {
        match (space, side) {
            (0, Side::Server) => {
                let all = self.talk.client_message().len();
                self.ends[1].hello.extend(offset..offset + len);
                if self.ends[1].hello.len() == all && !self.ends[1].has_flight {
                    let (hello, rest) = (self.talk.server_hello(), self.talk.end_of_server());
                    let server = &mut self.ends[1];
                    (server.has_flight, server.version) = (true, self.answers_in);
                    server.queue[0].push(crypto(0, &hello));
                    server.queue[1].push(crypto(0, &rest));
                }
            }
            (1, Side::Server) => {
                let server = &mut self.ends[1];
                (server.is_complete, server.is_confirmed, server.discarded[1]) = (true, true, true);
                server.queue[2].push(vec![0x1e]);
            }
            (0, Side::Client) => self.ends[0].has_flight = true,
            (1, Side::Client) if !self.ends[0].is_complete => {
                let finished = self.talk.end_of_client();
                self.ends[0].is_complete = true;
                self.ends[0].queue[1].push(crypto(0, &finished));
            }
            _ => {}
        }
    }

    // Answers a challenge on its path.
    fn answer(&mut self, data: u64, sent: &Sent, side: Side) -> Vec<Sent> {
        if !self.ends[side as usize].has_room(sent.from) || self.ends[side as usize].has_close {
            return Vec::new();
        }
        let frames = vec![[&[0x1b][..], &data.to_be_bytes()].concat()];
        let packet = self.packed(side, Short, frames);
        vec![self.join(side, vec![packet], sent.from)]
    }

    fn challenge(&mut self, side: Side, random: &mut Random) -> Option<Sent> {
        let data = u64::from_be_bytes(std::array::from_fn(|_| random.byte()));
        let end = &mut self.ends[side as usize];
        let to = end.peer;
        if !end.has_room(to) || end.has_close || end.is_drained {
            return None;
        }
        end.challenges.insert(data, to);
        let packet = self.packed(side, Short, vec![[&[0x1a][..], &data.to_be_bytes()].concat()]);
        Some(self.join(side, vec![packet], to))
    }

    fn close_again(&mut self, side: Side) -> Sent {
        let packet = self.packed(side, Short, vec![vec![0x1c, 0, 0, 0]]);
        let to = self.ends[side as usize].peer;
        self.join(side, vec![packet], to)
    }

    fn take_data(&mut self, frame: &Frame<'_>, side: Side) {
        let end = &mut self.ends[side as usize];
        match frame {
            Frame::Stream(one) => end.used_by_peer.extend([u64::from(one.id)]),
            Frame::ResetStream(one) => end.used_by_peer.extend([u64::from(one.id)]),
            Frame::MaxData(most) => end.max_data = end.max_data.max(most.into_inner()),
            Frame::MaxStreamData { id, offset } => {
                if let Some(out) = end.streams.get_mut(&u64::from(*id)).filter(|out| out.limit < u64::MAX) {
                    out.limit = out.limit.max(*offset);
                }
            }
            Frame::MaxStreams { dir, count } => {
                let most = &mut end.max_streams[*dir as usize];
                *most = (*most).max(*count);
            }
            Frame::NewConnectionId(new) => {
                if end.taken_ids.insert(new.sequence) {
                    end.theirs.insert(new.sequence, new.id.to_vec());
                }
                end.prior = end.prior.max(new.retire_prior_to);
                end.heed();
            }
            Frame::RetireConnectionId { sequence } => end.issued.retain(|one, _| one != sequence),
            _ => {}
        }
    }
}
