//! Random requests, scripts and states. The generator runs the model on the
//! side, so that most calls are of nodes and names that are there; every
//! few dozen lines it takes up another theme.

use crate::command::{Command, Form, Request};
use crate::malformed::{malformed, Fault};
use crate::prng::Prng;
use crate::rules::Law;
use crate::script::{Session, LONGEST_SCRIPT};
use crate::state::{host_of, set_of, word_of, NodeSet, State, MOST_NAMES, PIDS_PER_HOST};

/// What a stretch of lines is about.
#[derive(Clone, Copy, Debug, PartialEq, Eq)]
enum Theme {
    /// Any command with any arguments.
    Anything,
    /// Names of one group come and go.
    Naming,
    /// One namespace is filled to the brim, and hosts of its names are removed.
    Filling,
    /// Small groups until there are too many.
    Crowding,
    /// Groups that overlap and grow.
    Growing,
    /// Members leave and groups go.
    Thinning,
    /// Names of one group are registered for members and others, and their hosts
    /// are removed.
    Leaving,
    /// Names of one group are registered for members and strangers and looked up,
    /// and strangers join.
    Strangers,
    /// Links among free, grouped and hidden nodes.
    Linking,
    /// Members link to several free groups and are then set free.
    Freeing,
    /// Remote lookups and sends, with s_group zero among them.
    Remote,
    /// Sets and lists are asked for.
    Asking,
}

const THEMES: [Theme; 22] = [
    Theme::Anything,
    Theme::Naming,
    Theme::Naming,
    Theme::Filling,
    Theme::Crowding,
    Theme::Growing,
    Theme::Growing,
    Theme::Thinning,
    Theme::Thinning,
    Theme::Leaving,
    Theme::Leaving,
    Theme::Leaving,
    Theme::Strangers,
    Theme::Strangers,
    Theme::Strangers,
    Theme::Linking,
    Theme::Linking,
    Theme::Freeing,
    Theme::Freeing,
    Theme::Remote,
    Theme::Asking,
    Theme::Anything,
];

/// A random script of so many lines, cut at the last line that keeps it within
/// the longest script. One script in eight lacks its last newline.
pub fn script(seed: u64, lines: usize) -> Vec<u8> {
    let mut generator = Generator::new(seed);
    let mut bytes = Vec::new();
    for _ in 0..lines {
        let line = generator.line();
        if bytes.len() + line.len() > LONGEST_SCRIPT {
            break;
        }
        bytes.extend(line);
    }
    if generator.prng.once_in(8) {
        bytes.pop();
    }
    bytes
}

/// Gives one random request or line after the other.
pub struct Generator {
    pub prng: Prng,
    session: Session<'static>,
    theme: Theme,
    lines_left: u64,
    /// The s_group that the theme is about.
    focus: u32,
}

impl Generator {
    pub fn new(seed: u64) -> Generator {
        Generator {
            prng: Prng::new(seed),
            session: Session::new(&Law),
            theme: Theme::Anything,
            lines_left: 0,
            focus: 1,
        }
    }

    /// The same on this state.
    pub fn on(seed: u64, state: State) -> Generator {
        let mut generator = Generator::new(seed);
        generator.session.state = Some(state);
        generator
    }

    /// The state of the run so far; opens one if there is none.
    pub fn opened_state(&mut self) -> State {
        while self.session.state.is_none() {
            let request = self.opening();
            self.session.answer(&request);
        }
        self.session.state.clone().expect("just opened")
    }

    /// The next line with its newline; one in twelve is malformed.
    pub fn line(&mut self) -> Vec<u8> {
        let mut line = if self.prng.once_in(12) {
            self.malformed_line()
        } else {
            self.request().line().into_bytes()
        };
        line.push(b'\n');
        line
    }

    /// The next well formed request, which the run then takes into account.
    pub fn request(&mut self) -> Request {
        let opening_due = match self.session.state {
            None => !self.prng.once_in(3),
            Some(_) => self.prng.once_in(150),
        };
        let request = if opening_due {
            self.opening()
        } else {
            self.call()
        };
        self.session.answer(&request);
        request
    }

    /// Takes this request into account, as if it were the run's own.
    pub fn take(&mut self, request: &Request) {
        self.session.answer(request);
    }

    fn malformed_line(&mut self) -> Vec<u8> {
        let base = if self.prng.once_in(6) {
            self.opening()
        } else {
            self.call()
        };
        let fault = self.prng.pick(&Fault::ALL);
        malformed(fault, &base, &mut self.prng)
    }

    /// Rosters of all sizes, with no, few, half or all nodes hidden.
    fn opening(&mut self) -> Request {
        if self.prng.once_in(16) {
            return self.odd_opening();
        }
        let n = match self.prng.below(10) {
            0 => 1 + self.prng.below(2),
            1..=5 => 3 + self.prng.below(6),
            6 => 63 + self.prng.below(2),
            _ => 1 + self.prng.below(64),
        };
        let roster = u64::MAX >> (64 - n);
        let hidden = match self.prng.below(8) {
            0..=2 => 0,
            3..=5 => self.prng.word() & self.prng.word() & self.prng.word(),
            6 => self.prng.word(),
            _ => u64::MAX * self.prng.below(2),
        };
        Request::Open {
            n: n as u32,
            hidden: set_of(hidden & roster),
        }
    }

    /// An opening that is likely to be refused.
    fn odd_opening(&mut self) -> Request {
        Request::Open {
            n: self.prng.pick(&[0, 1, 4, 63, 64, 65, 66, u32::MAX]),
            hidden: set_of(self.prng.word() >> self.prng.below(64)),
        }
    }

    fn call(&mut self) -> Request {
        if self.lines_left == 0 {
            self.change_theme();
        }
        self.lines_left -= 1;
        let form = self.form();
        self.call_of(form)
    }

    /// Takes up a theme; without any s_group most others have to wait.
    fn change_theme(&mut self) {
        self.theme = if self.group_names().is_empty() && !self.prng.once_in(3) {
            self.prng
                .pick(&[Theme::Growing, Theme::Crowding, Theme::Freeing])
        } else {
            self.prng.pick(&THEMES)
        };
        self.lines_left = match self.theme {
            Theme::Filling | Theme::Crowding => 50 + self.prng.below(25),
            Theme::Strangers => 20 + self.prng.below(24),
            _ => 4 + self.prng.below(24),
        };
        self.focus = match self.group_names().as_slice() {
            [] => 1 + self.prng.below(40) as u32,
            names => self.prng.pick(names),
        };
    }

    /// A form that fits the theme; now and then any form.
    fn form(&mut self) -> Form {
        let patient = matches!(self.theme, Theme::Filling | Theme::Crowding);
        if self.prng.once_in(if patient { 20 } else { 8 }) || self.state().is_none() {
            return self.prng.pick(&Form::ALL);
        }
        match self.forms() {
            [only] => *only,
            several => self.prng.pick(several),
        }
    }

    /// The forms of the theme, as often as each is wanted. What a theme is about
    /// has to be there first.
    #[rustfmt::skip]
    fn forms(&self) -> &'static [Form] {
        use Form::*;
        let groups = self.group_names();
        match self.theme {
            _ if self.focused() && !groups.contains(&self.focus) => &[NewSGroup],
            Theme::Growing | Theme::Freeing if groups.is_empty() => &[NewSGroup],
            Theme::Thinning if groups.is_empty() => &[SendPid],
            Theme::Anything => &Form::ALL,
            Theme::Naming => &[
                RegisterName, RegisterName, ReRegisterName, UnregisterName, RegisteredNames,
                WhereisName, SendName,
            ],
            Theme::Filling => self.filling_forms(),
            Theme::Crowding => &[NewSGroup],
            Theme::Growing => &[NewSGroup, AddNodes, AddNodes],
            Theme::Thinning => &[RemoveNodes, RemoveNodes, DeleteSGroup, OwnNodes],
            Theme::Leaving => self.leaving_forms(),
            Theme::Strangers => self.stranger_forms(),
            Theme::Linking => &[SendPid, SendPid, SendPid, OwnNodes],
            Theme::Freeing => &[
                NewSGroup, SendPid, SendPid, SendPid, SendPid, DeleteSGroup, RemoveNodes, OwnNodes,
            ],
            Theme::Remote => &[WhereisNameAt, WhereisNameAt, SendNameAt, SendNameAt, SendPid],
            Theme::Asking => &[OwnNodes, OwnSGroups, RegisteredNames, WhereisName],
        }
    }

    /// A namespace is filled, and once it is full, hosts are removed.
    #[rustfmt::skip]
    fn filling_forms(&self) -> &'static [Form] {
        use Form::*;
        if self.members(self.focus).len() < 2 {
            &[AddNodes, RegisterName]
        } else if self.names_in(self.focus).len() < MOST_NAMES {
            &[
                RegisterName, RegisterName, RegisterName, RegisterName, RegisterName,
                ReRegisterName,
            ]
        } else {
            &[RegisterName, ReRegisterName, RemoveNodes]
        }
    }

    /// Members and names first, then hosts are removed.
    fn leaving_forms(&self) -> &'static [Form] {
        use Form::*;
        if self.members(self.focus).len() < 3 {
            &[AddNodes, AddNodes, RegisterName, RemoveNodes]
        } else if self.names_in(self.focus).len() < 4 {
            &[RegisterName]
        } else {
            &[RegisterName, RemoveNodes, RemoveNodes, RegisteredNames]
        }
    }

    /// Names first, then lookups, among which pids are replaced and nodes come and go.
    #[rustfmt::skip]
    fn stranger_forms(&self) -> &'static [Form] {
        use Form::*;
        if self.names_in(self.focus).len() < 3 {
            &[RegisterName]
        } else {
            &[
                WhereisName, WhereisName, WhereisNameAt, WhereisNameAt, SendName, SendName,
                SendNameAt, SendNameAt, ReRegisterName, ReRegisterName, AddNodes, RemoveNodes,
            ]
        }
    }

    /// A call of this form with arguments that mostly fit the state.
    fn call_of(&mut self, form: Form) -> Request {
        let s = self.group_name(form);
        let at = self.asked_node(s);
        let caller = self.caller(form, s);
        let n = u64::from(self.process_name(form, s));
        let p = u64::from(self.pid(s));
        let set = self.set_for(form, s, caller);
        let (at, s) = (u64::from(at), u64::from(s));
        let arguments = match form {
            Form::RegisterName | Form::ReRegisterName => vec![s, n, p],
            Form::UnregisterName | Form::WhereisName | Form::SendName => vec![s, n],
            Form::WhereisNameAt | Form::SendNameAt => vec![at, s, n],
            Form::RegisteredNames | Form::DeleteSGroup => vec![s],
            Form::SendPid => vec![p],
            Form::NewSGroup | Form::AddNodes | Form::RemoveNodes => vec![s, set],
            Form::OwnNodes | Form::OwnSGroups => Vec::new(),
        };
        let command = Command::from_arguments(form, &arguments).expect("the arguments fit");
        Request::Call { caller, command }
    }

    fn state(&self) -> Option<&State> {
        self.session.state.as_ref()
    }

    fn group_names(&self) -> Vec<u32> {
        let names = self.state().map(|state| state.s_groups.keys().copied());
        names.into_iter().flatten().collect()
    }

    fn roster_size(&self) -> u64 {
        self.state().map_or(4, |state| state.nodes.len() as u64)
    }

    /// Whether the theme is about one s_group and its names.
    fn focused(&self) -> bool {
        matches!(
            self.theme,
            Theme::Naming | Theme::Filling | Theme::Leaving | Theme::Strangers
        )
    }

    /// Whether links of members to free nodes are wanted.
    fn linking(&self) -> bool {
        matches!(self.theme, Theme::Linking | Theme::Freeing)
    }

    /// Once in a while an argument is out of the ordinary.
    fn odd(&mut self) -> bool {
        self.prng.once_in(30)
    }

    fn any_node(&mut self) -> u32 {
        self.prng.below(self.roster_size()) as u32
    }

    fn odd_node(&mut self) -> u32 {
        let size = self.roster_size() as u32;
        self.prng.pick(&[size, size + 1, 63, 64, u32::MAX])
    }

    fn members(&self, s: u32) -> Vec<u32> {
        let group = self.state().and_then(|state| state.s_groups.get(&s));
        group.map_or_else(Vec::new, |group| group.members.iter().copied().collect())
    }

    fn group_name(&mut self, form: Form) -> u32 {
        let remote = matches!(form, Form::WhereisNameAt | Form::SendNameAt);
        if self.odd() {
            return self.prng.pick(&[0, 65_535, 65_536, 65_537, u32::MAX]);
        }
        if remote && self.prng.once_in(5) {
            return 0;
        }
        if self.focused() && !self.prng.once_in(10) {
            return self.focus;
        }
        let names = self.group_names();
        if form == Form::NewSGroup {
            return self.new_group_name(&names);
        }
        if names.is_empty() || self.prng.once_in(12) {
            return 1 + self.prng.below(48) as u32;
        }
        match self.named_groups().as_slice() {
            named if form == Form::RemoveNodes && !named.is_empty() && !self.prng.once_in(3) => {
                self.prng.pick(named)
            }
            _ => self.prng.pick(&names),
        }
    }

    /// The s_groups that have a name.
    fn named_groups(&self) -> Vec<u32> {
        let mut groups = self.group_names();
        groups.retain(|s| !self.names_in(*s).is_empty());
        groups
    }

    /// A name that is mostly not in use.
    fn new_group_name(&mut self, names: &[u32]) -> u32 {
        if !names.is_empty() && self.prng.once_in(12) {
            return self.prng.pick(names);
        }
        match self.prng.below(10) {
            0 => self.prng.pick(&[1, 255, 256, 65_534, 65_535]),
            1 => 1 + self.prng.below(65_535) as u32,
            _ => 1 + self.prng.below(60) as u32,
        }
    }

    fn asked_node(&mut self, s: u32) -> u32 {
        if self.odd() {
            return self.odd_node();
        }
        match self.members(s).as_slice() {
            [] => self.any_node(),
            _ if self.prng.once_in(4) => self.any_node(),
            members => self.prng.pick(members),
        }
    }

    fn caller(&mut self, form: Form, s: u32) -> u32 {
        if self.odd() {
            return self.odd_node();
        }
        let by_member = !matches!(
            form,
            Form::NewSGroup
                | Form::SendPid
                | Form::WhereisNameAt
                | Form::SendNameAt
                | Form::OwnNodes
                | Form::OwnSGroups
        );
        match self.members(s).as_slice() {
            [] => self.any_node(),
            members if by_member && !self.prng.once_in(8) => self.prng.pick(members),
            members if self.linking() && self.prng.once_in(2) => self.prng.pick(members),
            _ => self.any_node(),
        }
    }

    fn names_in(&self, s: u32) -> Vec<(u32, u32)> {
        let group = self.state().and_then(|state| state.s_groups.get(&s));
        let names = group.map(|group| group.names.iter().map(|(n, p)| (*n, *p)));
        names.into_iter().flatten().collect()
    }

    /// A name of the s_group or any other; where strangers are the theme, it is
    /// mostly one of the first three, so that each is looked up again.
    fn process_name(&mut self, form: Form, s: u32) -> u32 {
        if self.odd() {
            return self.prng.pick(&[0, 0, 1, u32::MAX - 1, u32::MAX]);
        }
        let (held, span) = match self.theme {
            Theme::Filling => (self.prng.once_in(12), 100_000),
            Theme::Strangers => (form != Form::RegisterName && !self.prng.once_in(8), 60),
            _ => (self.prng.once_in(2), 60),
        };
        let mut names = self.names_in(s);
        if self.theme == Theme::Strangers {
            names.truncate(3);
        }
        match names.as_slice() {
            names if held && !names.is_empty() => self.prng.pick(names).0,
            _ if self.prng.once_in(10) => 1 + (self.prng.word() as u32 >> 1),
            _ => 1 + self.prng.below(span) as u32,
        }
    }

    /// A pid of the s_group, of any s_group, or another.
    fn pid(&mut self, s: u32) -> u32 {
        if self.odd() {
            return self.prng.word() as u32;
        }
        let names = self.names_in(s);
        if !names.is_empty() && self.prng.once_in(10) {
            return self.prng.pick(&names).1;
        }
        let others = self.named_groups();
        if !others.is_empty() && self.prng.once_in(10) {
            let other = self.prng.pick(&others);
            return self.prng.pick(&self.names_in(other)).1;
        }
        let inside = match self.prng.below(8) {
            0 => self.prng.pick(&[0, 1, PIDS_PER_HOST - 1]),
            _ => self.prng.below(5_000) as u32,
        };
        self.host(s) * PIDS_PER_HOST + inside
    }

    /// A node of the roster; where links are the theme, mostly a free normal one,
    /// where hosts are to leave, mostly a member, where strangers are, seldom one.
    fn host(&mut self, s: u32) -> u32 {
        let members = self.members(s);
        let inside = match self.theme {
            Theme::Filling | Theme::Leaving => !self.prng.once_in(3),
            Theme::Strangers => self.prng.once_in(3),
            _ => false,
        };
        if inside && !members.is_empty() {
            return self.prng.pick(&members);
        }
        let free = self.free_groups();
        if self.linking() && !free.is_empty() && !self.prng.once_in(3) {
            let nodes: Vec<u32> = self.prng.pick(&free).into_iter().collect();
            return self.prng.pick(&nodes);
        }
        self.any_node()
    }

    fn free_groups(&self) -> Vec<NodeSet> {
        let groups = self.state().map(|state| state.free_groups.iter().cloned());
        groups.into_iter().flatten().collect()
    }

    /// A set for the forms that take one; the caller is mostly in a new group, and
    /// hosts of names are mostly removed and often added.
    fn set_for(&mut self, form: Form, s: u32, caller: u32) -> u64 {
        let roster = u64::MAX >> (64 - self.roster_size());
        let hosts = match form {
            Form::RemoveNodes if !self.prng.once_in(3) => self.some_hosts(s),
            Form::AddNodes if self.prng.once_in(2) => self.some_hosts(s),
            _ => None,
        };
        let mut set = hosts.unwrap_or_else(|| self.subset(s) & roster);
        if form == Form::NewSGroup && caller < 64 && !self.prng.once_in(12) {
            set |= 1 << caller;
        }
        if self.odd() {
            set |= 1 << self.prng.below(64);
        }
        set
    }

    /// The hosts of one to three names of the s_group, if it has any.
    fn some_hosts(&mut self, s: u32) -> Option<u64> {
        let names = self.names_in(s);
        let hosts: Vec<u32> = names.iter().map(|(_, pid)| host_of(*pid)).collect();
        if hosts.is_empty() {
            return None;
        }
        let picks = 1 + self.prng.below(3);
        Some((0..picks).fold(0, |set, _| set | 1 << self.prng.pick(&hosts)))
    }

    fn subset(&mut self, s: u32) -> u64 {
        let free = self.free_groups();
        match self.prng.below(10) {
            0 => 0,
            1..=3 => 1 << self.any_node(),
            4 => (1 << self.any_node()) | (1 << self.any_node()),
            5 => self.prng.word() & self.prng.word(),
            6 => self.prng.word() & self.prng.word() & self.prng.word() & self.prng.word(),
            7 => word_of(&self.members(s).into_iter().collect()),
            8 if !free.is_empty() => word_of(&self.prng.pick(&free)) & self.prng.word(),
            _ => (1 << self.any_node()) | (1 << self.any_node()) | (1 << self.any_node()),
        }
    }
}
