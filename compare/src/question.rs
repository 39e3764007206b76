//! Document 02's popup questions and their answers, over the Rust's own popups and commands.
use uf_crsf::packets::{
    CommandPayload, DirectCommands, ScreenAdditionalData, ScreenCommand, ScreenPopup,
    ScreenPopupFields,
};

/// What an accepted call did with the question.
#[derive(Clone, Copy, Debug, PartialEq, Eq)]
pub enum Done {
    Opened,
    Processed,
    Cancelled,
    Expired,
}

/// Why a call is refused.
#[derive(Clone, Copy, Debug, PartialEq, Eq)]
pub enum Refusal {
    /// Neither a popup nor a returned value.
    OtherCommand,
    Clock,
    QuestionOpen,
    NoQuestion,
    Value,
}

impl Refusal {
    /// "27 clock, 28 question open, 29 no question, 30 value"; document 01's 2 for a command that is no call.
    pub fn number(self) -> u8 {
        match self {
            Refusal::OtherCommand => 2,
            Refusal::Clock => 27,
            Refusal::QuestionOpen => 28,
            Refusal::NoQuestion => 29,
            Refusal::Value => 30,
        }
    }
}

/// "the popup last sent, with the caller's second count".
#[derive(Clone, Debug, PartialEq)]
pub struct Sent {
    pub second: u32,
    pub popup: ScreenPopup,
}

impl Sent {
    fn fields(&self) -> ScreenPopupFields {
        self.popup.fields().expect("a popup that was constructed")
    }

    /// "at most the popup's timeout after it": how long ago is compared, and no sum, which could be too large.
    fn in_time(&self, fields: &ScreenPopupFields, second: u32) -> bool {
        second - self.second <= fields.max_timeout_interval.into()
    }

    /// What a return does with it.
    fn answered(&self, second: u32, value: u8, processed: bool) -> Result<Done, Refusal> {
        let fields = self.fields();
        if !self.in_time(&fields, second) {
            return Ok(Done::Expired);
        }
        if !processed {
            return Ok(Done::Cancelled);
        }
        match fields.additional_data {
            Some(ScreenAdditionalData::Selection(selection))
                if !(selection.min_value..=selection.max_value).contains(&value) =>
            {
                Err(Refusal::Value)
            }
            _ => Ok(Done::Processed),
        }
    }
}

/// "The box keeps at most one open question".
#[derive(Clone, Debug, Default, PartialEq)]
pub struct Question {
    /// The last accepted second. "The first call may carry any second."
    last: Option<u32>,
    open: Option<Sent>,
}

impl Question {
    /// One that was kept, if it is within its limits: "a kept time later than the last accepted one" is beyond them.
    pub fn kept(last: Option<u32>, open: Option<Sent>) -> Option<Self> {
        let within = match &open {
            Some(sent) => last.is_some_and(|last| sent.second <= last),
            None => true,
        };
        within.then_some(Question { last, open })
    }

    pub fn last(&self) -> Option<u32> {
        self.last
    }

    pub fn open(&self) -> Option<&Sent> {
        self.open.as_ref()
    }

    /// "A second count lower than the last accepted one is refused."
    fn judge(&self, second: u32) -> Result<(), Refusal> {
        match self.last {
            Some(last) if second < last => Err(Refusal::Clock),
            _ => Ok(()),
        }
    }

    /// "A new popup while one is open is refused until it is answered or expired, and then opens."
    pub fn ask(&mut self, second: u32, popup: ScreenPopup) -> Result<Done, Refusal> {
        self.judge(second)?;
        if self
            .open()
            .is_some_and(|sent| sent.in_time(&sent.fields(), second))
        {
            return Err(Refusal::QuestionOpen);
        }
        self.last = Some(second);
        self.open = Some(Sent { second, popup });
        Ok(Done::Opened)
    }

    /// "a second return, or one without a question, is refused"; any other closes it, but for a wrong value in time.
    pub fn returned(&mut self, second: u32, value: u8, processed: bool) -> Result<Done, Refusal> {
        self.judge(second)?;
        let sent = self.open().ok_or(Refusal::NoQuestion)?;
        let done = sent.answered(second, value, processed)?;
        self.last = Some(second);
        self.open = None;
        Ok(done)
    }

    /// A popup that is sent, or a returned value that arrives.
    pub fn command(&mut self, second: u32, command: DirectCommands) -> Result<Done, Refusal> {
        match command.payload {
            CommandPayload::Screen(ScreenCommand::PopupMessageStart(popup)) => {
                self.ask(second, popup)
            }
            CommandPayload::Screen(ScreenCommand::SelectionReturnValue { value, response }) => {
                self.returned(second, value, response)
            }
            _ => Err(Refusal::OtherCommand),
        }
    }
}
