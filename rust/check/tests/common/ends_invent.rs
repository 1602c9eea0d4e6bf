
impl Ends {
    // Does something that a side may do.
    fn invent(&mut self, side: Side, random: &mut Random) -> Vec<Sent> {
        let end = &mut self.ends[side as usize];
        if !end.is_complete || end.actions >= ACTIONS || !end.queue[2].is_empty() {
            return Vec::new();
        }
        end.actions += 1;
        match random.below(16) {
            0 => end.queue[2].push(PING.to_vec()),
            1..=4 => self.send_data(side, random),
            5 => end.permit(random),
            6 | 7 => self.issue(side, random),
            8 => end.change_id(),
            9 => return self.challenge(side, random).into_iter().collect(),
            10 if end.may_update => {
                end.updates += 1;
                end.may_update = false;
                end.queue[2].push(PING.to_vec());
            }
            11 => end.queue[2].push([vec![0x31], int(50), vec![7; 50]].concat()),
            12 => end.reset(),
            13 => end.stop(),
            14 if side == Side::Client && end.is_confirmed => {
                let port = end.address.port() + 1;
                end.address.set_port(port);
                end.queue[2].push(PING.to_vec());
                return self.challenge(side, random).into_iter().collect();
            }
            15 if end.actions > ACTIONS / 2 => {
                end.queue[2].push(vec![0x1c, 0, 0, 0]);
                end.has_close = true;
            }
            _ => end.queue[2].push(PING.to_vec()),
        }
        Vec::new()
    }

    fn send_data(&mut self, side: Side, random: &mut Random) {
        let end = &mut self.ends[side as usize];
        let (index, is_uni) = (random.below(8) as u64, random.below(3) == 0);
        let own = 4 * index + u64::from(side == Side::Server) + if is_uni { 2 } else { 0 };
        let of_peer = own ^ 1;
        let id = match is_uni || random.below(2) == 0 {
            true if index < end.max_streams[usize::from(is_uni)] => own,
            false if end.used_by_peer.contains(&of_peer) => of_peer,
            _ => return,
        };
        let out = end.streams.entry(id).or_insert(Out { end: 0, limit: LIMITS.1, is_over: false });
        let room = out.limit.min(LIMITS.1 * 20).saturating_sub(out.end).min(end.max_data - end.total).min(150);
        if out.is_over || out.limit == u64::MAX {
            return;
        }
        let len = if room == 0 { 0 } else { 1 + random.below(room as usize) as u64 };
        let is_fin = random.below(8) == 0;
        let ty = 0x0e | u8::from(is_fin);
        let bytes = [vec![ty], int(id), int(out.end), int(len), vec![7; len as usize]].concat();
        (out.end, out.is_over) = (out.end + len, is_fin);
        end.total += len;
        end.queue[2].push(bytes);
    }

    fn issue(&mut self, side: Side, random: &mut Random) {
        let end = &mut self.ends[side as usize];
        let has_prior = random.below(3) == 0 && end.issued.len() < 4;
        let prior = if has_prior { end.next_id } else { end.asked };
        let active = end.issued.keys().filter(|sequence| **sequence >= prior).count();
        if active >= 2 {
            return;
        }
        let sequence = end.next_id;
        let id = [&[side as u8 + 1, sequence as u8][..], b"id"].concat();
        end.asked = prior;
        end.next_id += 1;
        end.issued.insert(sequence, id.clone());
        let (id, reset_token) = (ConnectionId::new(&id), [sequence as u8 + 100 * side as u8; 16].into());
        let new = NewConnectionId { sequence, retire_prior_to: prior, id, reset_token };
        end.queue[2].push(frame(&Frame::NewConnectionId(new)));
    }
}

impl End {
    fn permit(&mut self, random: &mut Random) {
        match random.below(3) {
            0 => {
                self.given.0 += 500;
                self.queue[2].push([vec![0x10], int(self.given.0)].concat());
            }
            1 => {
                let Some(id) = self.used_by_peer.first().copied() else { return };
                self.given.1 += 100;
                self.queue[2].push([vec![0x11], int(id), int(self.given.1)].concat());
            }
            _ => {
                let uni = random.below(2);
                self.given.2[uni] += 1;
                self.queue[2].push([vec![0x12 + uni as u8], int(self.given.2[uni])].concat());
            }
        }
    }

    // Changes to another id of the peer, and retires the old one.
    fn change_id(&mut self) {
        let Some(next) = self.theirs.keys().copied().find(|sequence| *sequence > self.current) else { return };
        let old = std::mem::replace(&mut self.current, next);
        self.retire(old);
    }

    fn reset(&mut self) {
        let Some((id, out)) = self.streams.iter_mut().find(|(_, out)| out.limit < u64::MAX && !out.is_over) else {
            return;
        };
        out.limit = u64::MAX;
        let bytes = [vec![4], int(*id), vec![7], int(out.end)].concat();
        self.queue[2].push(bytes);
    }

    fn stop(&mut self) {
        let Some(id) = self.used_by_peer.last().copied() else { return };
        self.queue[2].push([vec![5], int(id), vec![7]].concat());
    }
}
